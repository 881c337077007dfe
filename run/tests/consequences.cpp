// Bugs whose causes are known: each case is one, or several that have nothing to do with each other. A line of a case
// that ends with `// entry` has the place of an entry of the report; all other reports of the case follow from these.
// consequences.py runs the case that the argument names.
#include <algorithm>
#include <cstdio>
#include <cstdlib>
#include <cstring>
#include <deque>
#include <list>
#include <map>
#include <memory>
#include <string>
#include <string_view>
#include <thread>
#include <unordered_map>
#include <vector>

#define APART __attribute__((noinline))

namespace {

struct Case {
    const char *name;
    void (*run)();
    Case *next;
    static Case *first;
    Case(const char *called, void (*does)()) : name(called), run(does), next(first) { first = this; }
};
Case *Case::first;

#define CASE(name)                                                                                                    \
    APART void name();                                                                                                \
    Case name##_case(#name, name);                                                                                    \
    void name()

volatile long sink;
template <typename T> APART T *kept(T *it) {
    __asm__ volatile("" : "+r"(it) : : "memory");
    return it;
}
APART long number(long it) {
    __asm__ volatile("" : "+r"(it) : : "memory");
    return it;
}
// Each case has a call of its own.
#define ROOM(type, count) kept(static_cast<type *>(std::calloc(count, sizeof(type))))
// What a compiler must not leave out.
template <typename T> __attribute__((always_inline)) inline volatile T *all(T *it) { return it; }

// Iterators and references of containers.

CASE(push_in_loop) {
    std::vector<int> values{1, 2, 3, 4};
    for (int &value : values) {
        if (value == 1) values.push_back(9);
        sink += value; // entry
        value = 7;
    }
}

struct Order {
    long id, total;
};

CASE(push_until_new_end) {
    std::vector<Order> orders{{1, 10}, {2, 20}, {3, 30}};
    long steps = 0;
    for (auto order = orders.begin(); order != orders.end() && steps < 5000; ++order, ++steps) {
        if (order->id == 2) orders.push_back({9, 0}); // then `order` is in memory that was freed
        sink += order->total;                         // entry
        sink -= order->id;
    }
}

CASE(walk_to_the_crash) {
    std::vector<long> values(8, 1);
    auto end = kept(&values)->end();
    values.reserve(100);
    for (auto it = values.begin(); it != end; ++it)
        sink += *it; // entry
}

CASE(erase_from_list) {
    std::list<long> values{1, 2, 3};
    for (auto it = values.begin(); it != values.end(); ++it) { // entry
        if (*it == 2) values.erase(it);
    }
}

CASE(erase_from_map) {
    std::map<long, long> values{{1, 1}, {2, 2}, {3, 3}};
    auto it = values.find(2);
    values.erase(it);
    sink += it->first; // entry
    sink += it->second;
    it->second = 4;
}

CASE(reference_to_element) {
    std::vector<Order> orders{{1, 10}};
    Order &first = orders.front();
    orders.push_back({2, 20});
    first.total += 5; // entry
    sink += first.total;
    sink += first.id;
}

CASE(data_of_resized) {
    std::vector<char> bytes(16);
    char *data = kept(bytes.data());
    bytes.resize(4000);
    sink += data[3]; // entry
    data[4] = 1;
    std::memcpy(bytes.data(), data, static_cast<size_t>(number(8)));
}

CASE(text_of_appended) {
    std::string text(40, 'a');
    const char *shown = kept(text.c_str());
    text.append(400, 'b');
    sink += static_cast<long>(std::strlen(shown)); // entry
    sink += shown[2];
}

APART std::string made_name(int number) {
    return "a name that is too long for the string itself " + std::to_string(number);
}

CASE(view_of_temporary) {
    std::string_view view = made_name(3);
    sink += view[0]; // entry
    sink += view[view.size() - 1];
    sink += static_cast<long>(view.find('3'));
}

CASE(front_of_deque) {
    std::deque<std::string> names;
    for (int at = 0; at < 4; at++) names.push_back(made_name(at));
    const char *first = names.front().c_str();
    names.pop_front();
    sink += first[0]; // entry
    sink += static_cast<long>(std::strlen(first));
}

CASE(inner_of_outer) {
    std::vector<std::vector<long>> rows(2, std::vector<long>(4, 1));
    std::vector<long> &row = rows[0];
    rows.reserve(100);
    row[1] = 5; // entry
    sink += static_cast<long>(row.size());
    row.push_back(3);
}

CASE(node_of_cleared) {
    std::unordered_map<int, std::string> names;
    for (int at = 0; at < 3; at++) names[at] = made_name(at);
    std::string &name = names[1];
    names.clear();
    sink += static_cast<long>(name.size()); // entry
    sink += name.c_str()[4];
    sink += static_cast<long>(std::strlen(name.c_str()));
}

// Trees and lists.

struct Node {
    Node *left, *right;
    long value;
};

APART Node *tree(int depth) {
    Node *it = ROOM(Node, 1);
    it->value = depth;
    if (depth) it->left = tree(depth - 1), it->right = tree(depth - 1);
    return it;
}
APART void free_tree(Node *it) {
    if (it == nullptr) return;
    Node left_and_right = *it;
    std::free(it);
    free_tree(left_and_right.left);
    free_tree(left_and_right.right);
}
#define SUM(name) /* each case has its own, since places of several processes are one */                              \
    APART long name(const Node *it)

SUM(sum_of_freed) {
    if (it == nullptr) return 0;
    long below = sum_of_freed(it->left); // entry
    return below + sum_of_freed(it->right) + it->value;
}
CASE(tree_freed_and_summed) {
    Node *top = tree(3);
    free_tree(top);
    sink += sum_of_freed(top);
}

SUM(sum_of_changed) {
    if (it == nullptr) return 0;
    long below = sum_of_changed(it->left);
    return below + sum_of_changed(it->right) + it->value;
}
CASE(tree_freed_and_changed) {
    Node *top = tree(2);
    free_tree(top);
    top->value = 7; // entry
    top->left->value = 8;
    top->right->right->value = 9;
    sink += sum_of_changed(top);
}

SUM(sum_with_freed_part) {
    if (it == nullptr) return 0;
    long below = it->value; // entry
    return below + sum_with_freed_part(it->left) + sum_with_freed_part(it->right);
}
CASE(part_of_tree_freed) {
    Node *top = tree(3);
    free_tree(top->left);
    sink += sum_with_freed_part(top);
}

APART void free_again(Node *it) {
    if (it == nullptr) return;
    free_again(it->left); // entry
    free_again(it->right);
    std::free(it);
}
CASE(tree_freed_twice) {
    Node *top = tree(2);
    free_tree(top);
    free_again(top);
}

struct Link {
    Link *next;
    long value;
};
APART Link *chain(int count) {
    Link *first = nullptr;
    for (int at = 0; at < count; at++) {
        Link *it = ROOM(Link, 1);
        it->next = first, it->value = at;
        first = it;
    }
    return first;
}
APART void free_chain(Link *first) {
    while (first) {
        Link *next = first->next;
        std::free(first);
        first = next;
    }
}

CASE(next_of_freed) {
    for (Link *it = chain(5); it; it = it->next) // entry
        std::free(it);
}

APART long length_of(const Link *it) {
    long length = 0;
    for (; it; it = it->next) length++; // entry
    return length;
}
APART long total_of(const Link *it) {
    long total = 0;
    for (; it; it = it->next) total += it->value;
    return total;
}
CASE(list_freed_and_read) {
    Link *first = chain(6);
    free_chain(first);
    sink += length_of(first);
    sink += total_of(first);
    first->next->value = 3;
}

APART void free_chain_again(Link *first) {
    while (first) {
        Link *next = first->next; // entry
        std::free(first);
        first = next;
    }
}
CASE(list_freed_twice) {
    Link *first = chain(4);
    free_chain(first);
    free_chain_again(first);
}

struct Ring {
    Ring *before, *after;
    long value;
};
CASE(freed_but_linked) {
    Ring *one = ROOM(Ring, 1), *two = ROOM(Ring, 1), *three = ROOM(Ring, 1);
    one->after = two, two->after = three, three->before = two, two->before = one;
    std::free(two);
    sink += one->after->value; // entry
    three->before->after = one;
    one->after->before = three;
    std::free(one), std::free(three);
}

struct Entry {
    Entry *next;
    char *key;
    long value;
};
APART Entry *entry_of(const char *key) {
    Entry *it = ROOM(Entry, 1);
    it->key = strdup(key);
    return it;
}
APART void free_entry(Entry *it) {
    std::free(it->key);
    std::free(it);
}
CASE(left_in_bucket) {
    Entry *bucket[2] = {entry_of("one"), entry_of("two")};
    free_entry(bucket[0]);
    for (Entry *it : bucket) {
        if (std::strcmp(it->key, "two") == 0) it->value = 2; // entry
        sink += it->value;
    }
    free_entry(bucket[1]);
}

struct Session {
    char *user;
    long *scores;
    long count;
};
APART Session *session_of(const char *user) {
    Session *it = ROOM(Session, 1);
    it->user = strdup(user), it->scores = ROOM(long, 4), it->count = 4;
    return it;
}
APART void close_session(Session *it) {
    std::free(it->user);
    std::free(it->scores);
    std::free(it);
}
APART long score_of(const Session *it) {
    long score = 0;
    for (long at = 0; at < all(it)->count; at++) score += all(it->scores)[at]; // entry
    return score;
}
APART void greet(const Session *it) { std::fprintf(stderr, "hello %s\n", it->user); }
CASE(closed_and_used) {
    Session *session = session_of("ada");
    close_session(session);
    sink += score_of(session);
    greet(session);
    session->count = 0;
}

struct Timer {
    void (*call)(void *);
    void *context;
};
APART void tick(void *context) {
    auto *session = static_cast<Session *>(context);
    session->count++; // entry
    session->scores[0] = session->count;
}
CASE(context_freed_before_call) {
    Session *session = session_of("bob");
    Timer timer{tick, session};
    close_session(session);
    for (int at = 0; at < 3; at++) timer.call(timer.context);
}

// Frees.

CASE(two_owners) {
    struct Owner {
        char *name;
    } one{strdup("name")}, two = one;
    std::free(one.name);
    sink += two.name[0]; // entry
    std::free(two.name);
}

CASE(array_freed_twice) {
    char *names[3];
    for (char *&name : names) name = strdup("name");
    for (char *name : names) std::free(name);
    for (char *name : names) std::free(name); // entry
}

struct Owning {
    long *values;
    Owning() : values(new long[3]()) {}
    ~Owning() { delete[] values; } // entry
};
CASE(two_pointers_own_one) {
    auto *made = kept(new Owning);
    {
        std::unique_ptr<Owning> one(made);
    }
    std::unique_ptr<Owning> two(made);
}

CASE(copied_without_copying) {
    struct Buffer {
        char *bytes;
        ~Buffer() {
            sink += bytes[0]; // entry
            std::free(bytes);
        }
    };
    Buffer one{ROOM(char, 8)};
    Buffer two(one);
    all(two.bytes)[0] = 1;
}

CASE(moved_by_realloc) {
    char *old = ROOM(char, 16);
    char *moved = kept(static_cast<char *>(std::realloc(old, 100000)));
    all(old)[0] = 'a'; // entry
    sink += old[1];
    std::strcpy(moved, old);
    std::free(moved);
}

CASE(free_inside_block) {
    char *text = strdup("  indented");
    while (*text == ' ') text++;
    std::free(kept(text)); // entry
    std::free(kept(text));
}

CASE(freed_in_other_thread) {
    long *values = ROOM(long, 4);
    std::thread([=] { std::free(values); }).join();
    values[0] = 1; // entry
    sink += values[1];
    std::thread([=] { sink += values[2]; }).join();
}

// Lengths that are too large.

CASE(length_of_message) {
    struct Message {
        int length;
        char text[12];
    };
    auto *message = ROOM(Message, 1);
    message->length = static_cast<int>(number(20));
    char copy[64];
    for (int at = 0; at < message->length; at++) copy[at] = message->text[at]; // entry
    sink += copy[3];
    message->text[message->length - 4] = 0;
    std::free(message);
}

CASE(record_after_record) {
    unsigned char *bytes = ROOM(unsigned char, 10);
    for (int at = 0; at < 10; at += 4) bytes[at] = 4;
    long at = 0, sum = 0;
    for (int records = 0; records < 20; records++) {
        unsigned length = bytes[at]; // entry
        sum += bytes[at + 1];
        at += length ? length : 4;
    }
    sink = sum;
    std::free(bytes);
}

CASE(text_without_end) {
    char *name = ROOM(char, 8);
    std::memcpy(name, "abcdefgh", 8);
    size_t length = std::strlen(name); // entry
    char copy[64];
    std::memcpy(copy, name, length + 1);
    sink += copy[0] + std::strcmp(name, "abcdefghi");
    std::free(name);
}

APART void fill(long *values, long count) {
    for (long at = 0; at <= count; at++) values[at] = at; // entry
}
APART long sum_of(const long *values, long count) {
    long sum = 0;
    for (long at = 0; at <= count; at++) sum += values[at];
    return sum;
}
CASE(count_off_by_one) {
    long *values = ROOM(long, 5);
    fill(values, number(5));
    sink += sum_of(values, number(5));
    std::free(values);
}

CASE(rows_and_columns) {
    long *cells = ROOM(long, 2 * 6), rows = number(2), columns = number(6);
    for (long row = 0; row < columns; row++) {
        for (long column = 0; column < rows; column++) {
            all(cells)[row * columns + column] = 1; // entry
            sink += all(cells)[row * columns + column];
        }
    }
    std::free(cells);
}

CASE(copied_past_both_ends) {
    long *from = ROOM(long, 4), *to = ROOM(long, 4);
    for (long at = 0; at < number(6); at++) to[at] = from[at]; // entry
    std::free(from), std::free(to);
}

CASE(copied_by_a_call) {
    char *from = ROOM(char, 10), *to = ROOM(char, 10);
    std::memcpy(to, from, static_cast<size_t>(number(30))); // entry
    sink += to[12];
    std::free(from), std::free(to);
}

CASE(next_state_from_beyond) {
    int *table = ROOM(int, 8), state = static_cast<int>(number(8));
    for (int at = 0; at < 4; at++) {
        state = table[state]; // entry
        state += 1000;
        sink += state;
    }
    std::free(table);
}

CASE(backwards_past_the_start) {
    char *path = strdup("no_slash"), *at = path + std::strlen(path);
    while (*at != '/' && path - at < number(40)) at--; // entry
    sink += at[0];
    all(at)[0] = 'x';
    std::free(path);
}

CASE(larger_struct_copied) {
    struct Small {
        long a, b;
    };
    struct Large {
        long a, b, c, d;
    };
    auto *small = ROOM(Small, 1);
    auto *large = reinterpret_cast<Large *>(kept(small));
    all(large)->d = 4; // entry
    all(large)->c = 5;
    sink += all(large)->d;
    std::free(small);
}

// The stack and globals.

CASE(printed_into_array) {
    char small[8];
    std::snprintf(kept(small), static_cast<size_t>(number(20)), "%s", "twelve chars"); // entry
    sink += static_cast<long>(std::strlen(kept(small)));
    sink += kept(small)[9];
}

CASE(after_its_scope) {
    long *pointer = nullptr;
    {
        long values[4] = {1, 2, 3, 4};
        pointer = kept(values);
    }
    sink += pointer[0]; // entry
    sink += pointer[1];
    pointer[2] = 5;
}

CASE(array_off_by_one) {
    int values[6];
    int *all = kept(values);
    for (int at = 0; at <= 6; at++) all[at] = at; // entry
    for (int at = 0; at <= 6; at++) sink += all[at];
    sink += all[6];
}

CASE(array_of_any_size) {
    size_t size = static_cast<size_t>(number(10));
    char *bytes = kept(static_cast<char *>(__builtin_alloca(size)));
    bytes[size] = 1; // entry
    sink += bytes[size];
    std::memset(bytes, 0, size + 2);
}

int days[12] = {31, 28, 31, 30, 31, 30, 31, 31, 30, 31, 30, 31};
APART int days_of(long month) { return kept(days)[month]; } // entry
CASE(month_13) {
    sink += days_of(number(12));
    kept(days)[number(12)] = 3;
    sink += kept(days)[number(12)];
}

char title[16];
CASE(title_too_long) {
    std::strcpy(kept(title), kept(const_cast<char *>("a title of twenty-six bytes"))); // entry
    sink += static_cast<long>(std::strlen(kept(title)));
    kept(title)[20] = 0;
}

// Wild addresses, and crashes.

struct Chained {
    Chained *next;
    long filler[3];
};
CASE(pointer_from_beyond) {
    auto **table = ROOM(Chained *, 4);
    Chained *it = table[number(4)]; // entry
    sink += it->filler[1];          // that pointer is null
}

CASE(pointer_from_freed) {
    auto *first = ROOM(Chained, 1);
    first->next = reinterpret_cast<Chained *>(number(0x123456789000));
    std::free(first);
    sink += first->next->filler[2]; // entry
}

CASE(index_from_freed) {
    long *index = ROOM(long, 1), *values = ROOM(long, 4);
    *index = 100000;
    std::free(index);
    sink += values[*index]; // entry
    values[*index] = 3;
    std::free(values);
}

CASE(aborted_after_report) {
    char *text = ROOM(char, 4);
    all(text)[4] = 'a'; // entry
    std::free(text);
    std::abort();
}

// Several bugs: each has an entry of its own.

CASE(two_blocks) {
    char *one = ROOM(char, 4), *two = ROOM(char, 4);
    all(one)[4] = 1; // entry
    std::free(two);
    all(two)[0] = 1; // entry
    std::free(one);
}

CASE(two_bugs_of_a_block) {
    char *text = ROOM(char, 4);
    all(text)[4] = 1; // entry
    all(text)[5] = 1;
    std::free(text);
    all(text)[0] = 1; // entry
    all(text)[1] = 1;
}

CASE(two_early_frees) {
    long *one = ROOM(long, 2), *two = ROOM(long, 2);
    std::free(one);
    std::free(two);
    sink += one[0]; // entry
    sink += two[0]; // entry
    one[1] = 3;
    two[1] = 4;
}

CASE(two_arrays) {
    int one[4], two[4];
    kept(one)[number(4)] = 1; // entry
    kept(two)[number(4)] = 2; // entry
    sink += kept(one)[1] + kept(two)[1];
}

APART long last_of(const long *values, long count) { return values[count]; } // entry, entry
CASE(two_callers) {
    long *one = ROOM(long, 3);
    long *two = ROOM(long, 4);
    sink += last_of(one, 3);
    sink += last_of(two, 4);
    std::free(one), std::free(two);
}

CASE(heap_and_stack) {
    char local[8], *heap = ROOM(char, 8);
    sink += heap[number(8)];        // entry
    sink += kept(local)[number(8)]; // entry
    std::free(heap);
}

CASE(double_free_and_overflow) {
    char *one = ROOM(char, 4), *two = ROOM(char, 6);
    std::free(one);
    std::free(kept(one)); // entry
    all(two)[6] = 1; // entry
    std::free(two);
}

int first_table[3], second_table[3];
CASE(two_globals) {
    sink += kept(first_table)[number(3)];  // entry
    sink += kept(second_table)[number(3)]; // entry
}

CASE(far_store_after_store) {
    char *one = ROOM(char, 4), *two = ROOM(char, 4);
    all(one)[4] = 1;           // entry
    all(two)[number(300)] = 1; // entry
    std::free(one), std::free(two);
}

APART void pushes(std::vector<long> &values) {
    long &first = values.front();
    values.push_back(3);
    sink += first; // entry
    first = 4;
}
CASE(iterator_and_off_by_one) {
    std::vector<long> values(2);
    pushes(values);
    long *others = ROOM(long, 3);
    for (int at = 0; at <= 3; at++) all(others)[at] = at; // entry
    std::free(others);
}

APART void rename_session(Session *it) {
    std::free(it->user); // entry
    it->user = strdup("another name");
}
CASE(leak_of_freed_owner) {
    Session *session = session_of("ada");
    std::free(session->scores);
    std::free(session);
    rename_session(session);
    session->user = nullptr;
}

CASE(leak_of_bad_free) {
    char *text = strdup("  indented");
    text += 2;
    std::free(kept(text)); // entry
    text = nullptr;
}

CASE(leak_and_overflow) {
    char *text = ROOM(char, 4);
    all(text)[4] = 1; // entry
    std::free(text);
    sink += *ROOM(char, 7); // entry
}

struct Job {
    void (*does)(Job *);
    void (*ends)(Job *);
    long *data;
};
APART void free_data(Job *job) { std::free(job->data); }
APART void read_data(Job *job) { sink += job->data[0]; } // entry
APART void free_job_data(Job *job) {
    std::free(job->data);
}
APART void write_data(Job *job) { all(job->data)[1] = 4; } // entry
CASE(two_handlers_of_a_loop) {
    Job jobs[2] = {{read_data, free_data, ROOM(long, 2)}, {write_data, free_job_data, ROOM(long, 2)}};
    for (int turn = 0; turn < 4; turn++) (turn % 2 ? jobs[turn / 2].does : jobs[turn / 2].ends)(&jobs[turn / 2]);
}

CASE(two_pairs_of_owners) {
    char *one = strdup("one"), *two = strdup("two");
    std::free(one);
    std::free(two);
    std::free(kept(one)); // entry
    std::free(kept(two)); // entry
}

CASE(three_bugs) {
    long *one = ROOM(long, 2), *two = ROOM(long, 2);
    long three[2];
    sink += one[2]; // entry
    sink += one[3];
    std::free(two);
    sink += two[0]; // entry
    sink += two[1];
    kept(three)[number(2)] = 1; // entry
    sink += kept(three)[number(2)];
    std::free(one);
}

} // namespace

int main(int argc, char **argv) {
    for (Case *it = Case::first; it; it = it->next) {
        if (argc > 1 && !std::strcmp(argv[1], it->name)) it->run();
    }
    return 0;
}
