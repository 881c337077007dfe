// Splits a text, and looks at each word. It has no bug.
#include <string>
#include <vector>

#include "words.h"

int main()
{
    const std::vector<std::string> wanted = {"a", "farm", "of", "any", "size"};
    words *list = words_split("a farm  of any size ");
    if (list == nullptr)
        return 1;
    const std::vector<std::string> seen(list->texts, list->texts + list->count);
    words_free(list);
    return seen == wanted ? 0 : 1;
}
