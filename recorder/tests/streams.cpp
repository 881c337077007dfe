// What the library of C++ has not as a template calls the C library: each with a block of 8 bytes or a freed string,
// and cleanly.
#include <cstdlib>
#include <cstring>
#include <cxxabi.h>
#include <fstream>
#include <iostream>
#include <locale>
#include <sstream>
#include <string>

static void print(char *text) { std::cout << text << std::endl; }

static void read(char *to, int size) {
  std::ifstream in("/dev/zero");
  in.read(to, size);
}

static void get_line(char *to, int size) {
  std::istringstream in("a line that is long enough\n");
  in.getline(to, size);
}

static void write(const char *from) {
  std::cout.write(from, 100);
  std::cout.flush();
}

static void collate(const char *from, int size) {
  std::use_facet<std::collate<char>>(std::locale::classic()).transform(from, from + size);
}

static void demangle(const char *name) {
  int status;
  std::free(abi::__cxa_demangle(name, nullptr, nullptr, &status));
}

int main(int count, char **argv) {
  const char *what = argv[1];
  bool is_bad = count > 2;
  char *block = static_cast<char *>(std::malloc(8));
  std::memset(block, 'a', 8);
  std::string *text = new std::string(100, 'x');
  const char *data = text->data();
  if (is_bad)
    delete text;
  else
    block[7] = 0;
  if (std::strcmp(what, "print") == 0)
    print(block);
  else if (std::strcmp(what, "read") == 0)
    read(block, is_bad ? 16 : 8);
  else if (std::strcmp(what, "get_line") == 0)
    get_line(block, is_bad ? 20 : 8);
  else if (std::strcmp(what, "write") == 0)
    write(data);
  else if (std::strcmp(what, "collate") == 0)
    collate(block, is_bad ? 12 : 8);
  else if (std::strcmp(what, "demangle") == 0)
    demangle(block);
  return 0;
}
