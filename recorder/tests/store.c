/* A small key-value store, as an example of a real program: it reads commands, keeps JSON values under keys, and prints
   the requested ones.

       set KEY JSON     get KEY [PATH]     del KEY      keys [FRONT]     merge KEY JSON
       push KEY JSON    sum KEY            size         sort KEY         copy KEY KEY
       find TEXT        undo               dump

   With --bug NAME it has a bug at one place: the driver plants it there. */
#define _GNU_SOURCE
#include <ctype.h>
#include <errno.h>
#include <stdarg.h>
#include <stdbool.h>
#include <stdint.h>
#include <stdio.h>
#include <stdlib.h>
#include <string.h>

enum bug { BUG_NONE, BUG_SHORT_STRING, BUG_OLD_ARRAY, BUG_TWICE, BUG_SHORT_TABLE, BUG_READ_PAST };

static enum bug bug;

static _Noreturn void die(const char *what)
{
    fprintf(stderr, "store: %s\n", what);
    exit(1);
}

static void *must(void *memory)
{
    if (memory == NULL)
        die("no memory");
    return memory;
}

/* Text that grows. */

struct text {
    char *bytes;
    size_t length, room;
};

static void text_reserve(struct text *text, size_t more)
{
    if (text->length + more + 1 <= text->room)
        return;
    size_t room = text->room ? text->room : 16;
    while (room < text->length + more + 1)
        room *= 2;
    text->bytes = must(realloc(text->bytes, room));
    text->room = room;
}

static void text_add_bytes(struct text *text, const char *bytes, size_t count)
{
    text_reserve(text, count);
    memcpy(text->bytes + text->length, bytes, count);
    text->length += count;
    text->bytes[text->length] = 0;
}

static void text_add(struct text *text, const char *string)
{
    text_add_bytes(text, string, strlen(string));
}

static void text_add_byte(struct text *text, char byte)
{
    text_add_bytes(text, &byte, 1);
}

__attribute__((format(printf, 2, 3))) static void text_print(struct text *text, const char *format, ...)
{
    va_list values;
    char *printed = NULL;
    va_start(values, format);
    int count = vasprintf(&printed, format, values);
    va_end(values);
    if (count < 0)
        die("no memory");
    text_add_bytes(text, printed, (size_t)count);
    free(printed);
}

static char *text_take(struct text *text)
{
    text_reserve(text, 0);
    text->bytes[text->length] = 0;
    char *bytes = text->bytes;
    *text = (struct text){0};
    return bytes;
}

static char *copy_bytes(const char *bytes, size_t count)
{
    char *copy = must(malloc(count + (bug == BUG_SHORT_STRING ? 0 : 1)));
    memcpy(copy, bytes, count);
    copy[count] = 0;
    return copy;
}

/* JSON values. */

enum kind { KIND_NULL, KIND_FALSE, KIND_TRUE, KIND_NUMBER, KIND_STRING, KIND_ARRAY, KIND_OBJECT };

struct value;

struct array {
    struct value **items;
    size_t count, room;
};

struct member {
    char *name;
    struct value *value;
};

struct object {
    struct member *members;
    size_t count, room;
};

struct value {
    enum kind kind;
    union {
        double number;
        char *string;
        struct array array;
        struct object object;
    };
};

static struct value *value_new(enum kind kind)
{
    struct value *value = must(calloc(1, sizeof *value));
    value->kind = kind;
    return value;
}

static void value_free(struct value *value)
{
    if (value == NULL)
        return;
    switch (value->kind) {
    case KIND_STRING:
        free(value->string);
        break;
    case KIND_ARRAY:
        for (size_t i = 0; i < value->array.count; i++)
            value_free(value->array.items[i]);
        free(value->array.items);
        break;
    case KIND_OBJECT:
        for (size_t i = 0; i < value->object.count; i++) {
            free(value->object.members[i].name);
            value_free(value->object.members[i].value);
        }
        free(value->object.members);
        break;
    default:
        break;
    }
    free(value);
}

static void array_push(struct array *array, struct value *value)
{
    if (array->count == array->room) {
        array->room = array->room ? 2 * array->room : 4;
        struct value **moved = must(realloc(array->items, array->room * sizeof *array->items));
        if (bug == BUG_OLD_ARRAY && array->items != NULL)
            array->items[0] = moved[0];
        array->items = moved;
    }
    array->items[array->count++] = value;
}

static struct value *object_find(const struct object *object, const char *name)
{
    for (size_t i = 0; i < object->count; i++)
        if (strcmp(object->members[i].name, name) == 0)
            return object->members[i].value;
    return NULL;
}

/* Takes the name and the value. */
static void object_set(struct object *object, char *name, struct value *value)
{
    for (size_t i = 0; i < object->count; i++) {
        if (strcmp(object->members[i].name, name) == 0) {
            value_free(object->members[i].value);
            object->members[i].value = value;
            free(name);
            return;
        }
    }
    if (object->count == object->room) {
        object->room = object->room ? 2 * object->room : 4;
        object->members = must(realloc(object->members, object->room * sizeof *object->members));
    }
    object->members[object->count++] = (struct member){name, value};
}

static struct value *value_copy(const struct value *value)
{
    struct value *copy = value_new(value->kind);
    switch (value->kind) {
    case KIND_NUMBER:
        copy->number = value->number;
        break;
    case KIND_STRING:
        copy->string = must(strdup(value->string));
        break;
    case KIND_ARRAY:
        for (size_t i = 0; i < value->array.count; i++)
            array_push(&copy->array, value_copy(value->array.items[i]));
        break;
    case KIND_OBJECT:
        for (size_t i = 0; i < value->object.count; i++)
            object_set(&copy->object, must(strdup(value->object.members[i].name)),
                       value_copy(value->object.members[i].value));
        break;
    default:
        break;
    }
    return copy;
}

/* Numbers before strings, and each by itself; others by their kinds. */
static int value_compare(const void *left, const void *right)
{
    const struct value *a = *(struct value *const *)left, *b = *(struct value *const *)right;
    if (a->kind != b->kind)
        return a->kind < b->kind ? -1 : 1;
    if (a->kind == KIND_NUMBER)
        return a->number < b->number ? -1 : a->number > b->number;
    return a->kind == KIND_STRING ? strcmp(a->string, b->string) : 0;
}

/* Reading JSON. */

struct reader {
    const char *next;
    const char *wrong; /* the mistake, once there is one */
    int depth;
};

static struct value *read_value(struct reader *reader);

static void skip_blanks(struct reader *reader)
{
    while (isspace((unsigned char)*reader->next))
        reader->next++;
}

static struct value *wrong(struct reader *reader, const char *what)
{
    if (reader->wrong == NULL)
        reader->wrong = what;
    return NULL;
}

static int read_hex(struct reader *reader)
{
    int code = 0;
    for (int i = 0; i < 4; i++) {
        int digit = (unsigned char)*reader->next;
        if (!isxdigit(digit))
            return -1;
        code = code * 16 + (isdigit(digit) ? digit - '0' : tolower(digit) - 'a' + 10);
        reader->next++;
    }
    return code;
}

static void add_code_point(struct text *text, uint32_t code)
{
    if (code < 0x80) {
        text_add_byte(text, (char)code);
    } else if (code < 0x800) {
        text_add_byte(text, (char)(0xc0 | code >> 6));
        text_add_byte(text, (char)(0x80 | (code & 0x3f)));
    } else if (code < 0x10000) {
        text_add_byte(text, (char)(0xe0 | code >> 12));
        text_add_byte(text, (char)(0x80 | (code >> 6 & 0x3f)));
        text_add_byte(text, (char)(0x80 | (code & 0x3f)));
    } else {
        text_add_byte(text, (char)(0xf0 | code >> 18));
        text_add_byte(text, (char)(0x80 | (code >> 12 & 0x3f)));
        text_add_byte(text, (char)(0x80 | (code >> 6 & 0x3f)));
        text_add_byte(text, (char)(0x80 | (code & 0x3f)));
    }
}

static bool read_unicode(struct reader *reader, struct text *text)
{
    int high = read_hex(reader);
    if (high < 0)
        return false;
    if (high >= 0xd800 && high < 0xdc00) {
        if (reader->next[0] != '\\' || reader->next[1] != 'u')
            return false;
        reader->next += 2;
        int low = read_hex(reader);
        if (low < 0xdc00 || low >= 0xe000)
            return false;
        add_code_point(text, 0x10000 + (((uint32_t)high - 0xd800) << 10) + ((uint32_t)low - 0xdc00));
        return true;
    }
    add_code_point(text, (uint32_t)high);
    return true;
}

static bool read_escape(struct reader *reader, struct text *text)
{
    static const char from[] = "\"\\/bfnrt", to[] = "\"\\/\b\f\n\r\t";
    char byte = *reader->next;
    if (byte == 0)
        return false;
    reader->next++;
    if (byte == 'u')
        return read_unicode(reader, text);
    const char *found = strchr(from, byte);
    if (found == NULL)
        return false;
    text_add_byte(text, to[found - from]);
    return true;
}

/* The bytes of a string, after its first quotation mark. */
static char *read_string(struct reader *reader)
{
    struct text text = {0};
    for (;;) {
        const char *stop = reader->next + strcspn(reader->next, "\"\\");
        text_add_bytes(&text, reader->next, (size_t)(stop - reader->next));
        reader->next = stop;
        if (*stop == 0) {
            wrong(reader, "a string has no end");
            break;
        }
        reader->next++;
        if (*stop == '"') {
            char *string = copy_bytes(text.bytes ? text.bytes : "", text.length);
            free(text.bytes);
            return string;
        }
        if (!read_escape(reader, &text)) {
            wrong(reader, "a string has an escape that is none");
            break;
        }
    }
    free(text.bytes);
    return NULL;
}

static struct value *read_number(struct reader *reader)
{
    char *end;
    errno = 0;
    double number = strtod(reader->next, &end);
    if (end == reader->next || errno == ERANGE)
        return wrong(reader, "this is no number");
    reader->next = end;
    struct value *value = value_new(KIND_NUMBER);
    value->number = number;
    return value;
}

static struct value *read_array(struct reader *reader)
{
    struct value *value = value_new(KIND_ARRAY);
    skip_blanks(reader);
    if (*reader->next == ']') {
        reader->next++;
        return value;
    }
    for (;;) {
        struct value *item = read_value(reader);
        if (item == NULL)
            break;
        array_push(&value->array, item);
        skip_blanks(reader);
        if (*reader->next == ']') {
            reader->next++;
            return value;
        }
        if (*reader->next != ',') {
            wrong(reader, "an array has no end");
            break;
        }
        reader->next++;
    }
    value_free(value);
    return NULL;
}

static bool read_member(struct reader *reader, struct object *object)
{
    skip_blanks(reader);
    if (*reader->next != '"')
        return wrong(reader, "a member has no name") != NULL;
    reader->next++;
    char *name = read_string(reader);
    if (name == NULL)
        return false;
    skip_blanks(reader);
    struct value *value = NULL;
    if (*reader->next == ':') {
        reader->next++;
        value = read_value(reader);
    } else {
        wrong(reader, "a member has no value");
    }
    if (value == NULL) {
        free(name);
        return false;
    }
    object_set(object, name, value);
    return true;
}

static struct value *read_object(struct reader *reader)
{
    struct value *value = value_new(KIND_OBJECT);
    skip_blanks(reader);
    if (*reader->next == '}') {
        reader->next++;
        return value;
    }
    while (read_member(reader, &value->object)) {
        skip_blanks(reader);
        if (*reader->next == '}') {
            reader->next++;
            return value;
        }
        if (*reader->next != ',') {
            wrong(reader, "an object has no end");
            break;
        }
        reader->next++;
    }
    value_free(value);
    return NULL;
}

static struct value *read_word(struct reader *reader)
{
    static const struct {
        const char *word;
        enum kind kind;
    } words[] = {{"null", KIND_NULL}, {"false", KIND_FALSE}, {"true", KIND_TRUE}};
    for (size_t i = 0; i < sizeof words / sizeof *words; i++) {
        size_t length = strlen(words[i].word);
        if (strncmp(reader->next, words[i].word, length) == 0) {
            reader->next += length;
            return value_new(words[i].kind);
        }
    }
    return wrong(reader, "this is no value");
}

static struct value *read_value(struct reader *reader)
{
    struct value *value = NULL;
    skip_blanks(reader);
    if (++reader->depth > 200) {
        wrong(reader, "this is too deep");
    } else if (*reader->next == '[') {
        reader->next++;
        value = read_array(reader);
    } else if (*reader->next == '{') {
        reader->next++;
        value = read_object(reader);
    } else if (*reader->next == '"') {
        reader->next++;
        char *string = read_string(reader);
        if (string != NULL) {
            value = value_new(KIND_STRING);
            value->string = string;
        }
    } else if (*reader->next == '-' || isdigit((unsigned char)*reader->next)) {
        value = read_number(reader);
    } else {
        value = read_word(reader);
    }
    reader->depth--;
    return value;
}

/* Writing JSON. */

static void write_string(struct text *text, const char *string)
{
    text_add_byte(text, '"');
    for (const char *byte = string; *byte != 0; byte++) {
        if (*byte == '"' || *byte == '\\')
            text_print(text, "\\%c", *byte);
        else if (*byte == '\n')
            text_add(text, "\\n");
        else if ((unsigned char)*byte < 0x20)
            text_print(text, "\\u%04x", *byte);
        else
            text_add_byte(text, *byte);
    }
    text_add_byte(text, '"');
}

static void write_value(struct text *text, const struct value *value)
{
    switch (value->kind) {
    case KIND_NULL:
        text_add(text, "null");
        break;
    case KIND_FALSE:
        text_add(text, "false");
        break;
    case KIND_TRUE:
        text_add(text, "true");
        break;
    case KIND_NUMBER:
        text_print(text, "%.10g", value->number);
        break;
    case KIND_STRING:
        write_string(text, value->string);
        break;
    case KIND_ARRAY:
        text_add_byte(text, '[');
        for (size_t i = 0; i < value->array.count; i++) {
            if (i > 0)
                text_add_byte(text, ',');
            write_value(text, value->array.items[i]);
        }
        text_add_byte(text, ']');
        break;
    case KIND_OBJECT:
        text_add_byte(text, '{');
        for (size_t i = 0; i < value->object.count; i++) {
            if (i > 0)
                text_add_byte(text, ',');
            write_string(text, value->object.members[i].name);
            text_add_byte(text, ':');
            write_value(text, value->object.members[i].value);
        }
        text_add_byte(text, '}');
        break;
    }
}

static void show(const struct value *value)
{
    struct text text = {0};
    write_value(&text, value);
    puts(text.bytes);
    free(text.bytes);
}

/* The table: open addressing, a power of two of places. */

struct entry {
    char *key; /* null: free */
    struct value *value;
    uint64_t hash;
};

struct table {
    struct entry *entries;
    size_t places, count;
};

static uint64_t hash_of(const char *key)
{
    uint64_t hash = 14695981039346656037u;
    for (; *key != 0; key++)
        hash = (hash ^ (unsigned char)*key) * 1099511628211u;
    return hash;
}

static size_t place_of(const struct table *table, const char *key, uint64_t hash)
{
    size_t place = hash & (table->places - 1);
    while (table->entries[place].key != NULL
           && (table->entries[place].hash != hash || strcmp(table->entries[place].key, key) != 0))
        place = (place + 1) & (table->places - 1);
    return place;
}

static void table_grow(struct table *table)
{
    struct table grown = {NULL, table->places ? 2 * table->places : 8, table->count};
    size_t places = grown.places - (bug == BUG_SHORT_TABLE && table->places ? 1 : 0);
    grown.entries = must(calloc(places, sizeof *grown.entries));
    for (size_t i = 0; i < table->places; i++) {
        const struct entry *entry = &table->entries[i];
        if (entry->key != NULL)
            grown.entries[place_of(&grown, entry->key, entry->hash)] = *entry;
    }
    free(table->entries);
    *table = grown;
}

static struct value *table_find(const struct table *table, const char *key)
{
    if (table->places == 0)
        return NULL;
    return table->entries[place_of(table, key, hash_of(key))].value;
}

/* Takes the value; gives the one that was there. */
static struct value *table_set(struct table *table, const char *key, struct value *value)
{
    if (4 * (table->count + 1) > 3 * table->places)
        table_grow(table);
    uint64_t hash = hash_of(key);
    struct entry *entry = &table->entries[place_of(table, key, hash)];
    struct value *old = entry->value;
    if (entry->key == NULL) {
        *entry = (struct entry){must(strdup(key)), value, hash};
        table->count++;
    }
    entry->value = value;
    return old;
}

/* Takes the entry out, and moves up those that it had pushed on. */
static struct value *table_remove(struct table *table, const char *key)
{
    if (table->places == 0)
        return NULL;
    size_t hole = place_of(table, key, hash_of(key));
    struct value *value = table->entries[hole].value;
    if (table->entries[hole].key == NULL)
        return NULL;
    free(table->entries[hole].key);
    table->count--;
    for (size_t next = (hole + 1) & (table->places - 1); table->entries[next].key != NULL;
         next = (next + 1) & (table->places - 1)) {
        size_t home = table->entries[next].hash & (table->places - 1);
        if (((next - home) & (table->places - 1)) >= ((next - hole) & (table->places - 1))) {
            table->entries[hole] = table->entries[next];
            hole = next;
        }
    }
    table->entries[hole] = (struct entry){NULL, NULL, 0};
    return value;
}

static int compare_keys(const void *left, const void *right)
{
    return strcmp(*(char *const *)left, *(char *const *)right);
}

/* The keys that begin so, in order. */
static char **table_keys(const struct table *table, const char *front, size_t *count)
{
    char **keys = must(calloc(table->count + 1, sizeof *keys));
    *count = 0;
    for (size_t i = 0; i < table->places; i++)
        if (table->entries[i].key != NULL && strncmp(table->entries[i].key, front, strlen(front)) == 0)
            keys[(*count)++] = table->entries[i].key;
    qsort(keys, *count, sizeof *keys, compare_keys);
    return keys;
}

static void table_clear(struct table *table)
{
    for (size_t i = 0; i < table->places; i++) {
        free(table->entries[i].key);
        value_free(table->entries[i].value);
    }
    free(table->entries);
    *table = (struct table){0};
}

/* What a change was before, for undo: a stack. */

struct change {
    struct change *before;
    char *key;
    struct value *value; /* null: there was none */
};

struct store {
    struct table table;
    struct change *changes;
};

static void remember(struct store *store, const char *key, struct value *value)
{
    struct change *change = must(malloc(sizeof *change));
    *change = (struct change){store->changes, must(strdup(key)), value};
    store->changes = change;
}

static void put(struct store *store, const char *key, struct value *value)
{
    struct value *old = table_set(&store->table, key, value);
    remember(store, key, old);
    if (bug == BUG_TWICE && old != NULL)
        value_free(old);
}

static bool undo(struct store *store)
{
    struct change *change = store->changes;
    if (change == NULL)
        return false;
    store->changes = change->before;
    if (change->value != NULL)
        value_free(table_set(&store->table, change->key, change->value));
    else
        value_free(table_remove(&store->table, change->key));
    free(change->key);
    free(change);
    return true;
}

static void store_clear(struct store *store)
{
    while (store->changes != NULL) {
        struct change *change = store->changes;
        store->changes = change->before;
        value_free(change->value);
        free(change->key);
        free(change);
    }
    table_clear(&store->table);
}

/* Commands. */

static char *next_word(char **rest)
{
    char *word = *rest + strspn(*rest, " \t");
    size_t length = strcspn(word, " \t\n");
    *rest = word + length + (word[length] != 0);
    word[length] = 0;
    return word;
}

static struct value *parse(const char *json)
{
    struct reader reader = {json, NULL, 0};
    struct value *value = read_value(&reader);
    if (value != NULL) {
        skip_blanks(&reader);
        if (*reader.next != 0) {
            wrong(&reader, "there is more after the value");
            value_free(value);
            value = NULL;
        }
    }
    if (value == NULL)
        printf("error: %s\n", reader.wrong);
    return value;
}

/* What a path such as a.b.3 leads to. */
static const struct value *follow(const struct value *value, const char *path)
{
    while (*path != 0 && value != NULL) {
        size_t length = strcspn(path, ".");
        char *name = must(strndup(path, length));
        if (value->kind == KIND_OBJECT) {
            value = object_find(&value->object, name);
        } else if (value->kind == KIND_ARRAY) {
            char *end;
            unsigned long index = strtoul(name, &end, 10);
            bool is_index = *name != 0 && *end == 0;
            size_t count = value->array.count + (bug == BUG_READ_PAST ? 1 : 0);
            value = is_index && index < count ? value->array.items[index] : NULL;
        } else {
            value = NULL;
        }
        free(name);
        path += length + (path[length] == '.');
    }
    return value;
}

static void do_set(struct store *store, char *rest)
{
    char *key = next_word(&rest);
    struct value *value = parse(rest);
    if (value != NULL) {
        put(store, key, value);
        puts("ok");
    }
}

static void do_get(struct store *store, char *rest)
{
    char *key = next_word(&rest), *path = next_word(&rest);
    const struct value *value = table_find(&store->table, key);
    value = value != NULL ? follow(value, path) : NULL;
    if (value != NULL)
        show(value);
    else
        puts("none");
}

static void do_del(struct store *store, char *rest)
{
    char *key = next_word(&rest);
    struct value *value = table_remove(&store->table, key);
    if (value != NULL)
        remember(store, key, value);
    puts(value != NULL ? "ok" : "none");
}

static void do_keys(struct store *store, char *rest)
{
    size_t count;
    char **keys = table_keys(&store->table, next_word(&rest), &count);
    for (size_t i = 0; i < count; i++)
        puts(keys[i]);
    free(keys);
}

static void do_merge(struct store *store, char *rest)
{
    char *key = next_word(&rest);
    struct value *more = parse(rest), *old = table_find(&store->table, key);
    if (more == NULL)
        return;
    if (more->kind != KIND_OBJECT || (old != NULL && old->kind != KIND_OBJECT)) {
        puts("error: this is no object");
        value_free(more);
        return;
    }
    struct value *merged = old != NULL ? value_copy(old) : value_new(KIND_OBJECT);
    for (size_t i = 0; i < more->object.count; i++)
        object_set(&merged->object, must(strdup(more->object.members[i].name)),
                   value_copy(more->object.members[i].value));
    value_free(more);
    put(store, key, merged);
    puts("ok");
}

static struct value *array_of(struct store *store, const char *key)
{
    struct value *value = table_find(&store->table, key);
    if (value != NULL && value->kind == KIND_ARRAY)
        return value;
    puts("error: this is no array");
    return NULL;
}

static void do_push(struct store *store, char *rest)
{
    struct value *array = array_of(store, next_word(&rest));
    struct value *item = array != NULL ? parse(rest) : NULL;
    if (item != NULL) {
        array_push(&array->array, item);
        printf("%zu\n", array->array.count);
    }
}

static double sum_of(const struct value *value)
{
    double sum = value->kind == KIND_NUMBER ? value->number : 0;
    if (value->kind == KIND_ARRAY)
        for (size_t i = 0; i < value->array.count; i++)
            sum += sum_of(value->array.items[i]);
    if (value->kind == KIND_OBJECT)
        for (size_t i = 0; i < value->object.count; i++)
            sum += sum_of(value->object.members[i].value);
    return sum;
}

static void do_sum(struct store *store, char *rest)
{
    const struct value *value = table_find(&store->table, next_word(&rest));
    if (value != NULL)
        printf("%.10g\n", sum_of(value));
    else
        puts("none");
}

static void do_size(struct store *store, char *rest)
{
    (void)rest;
    printf("%zu\n", store->table.count);
}

static void do_sort(struct store *store, char *rest)
{
    struct value *array = array_of(store, next_word(&rest));
    if (array == NULL)
        return;
    if (array->array.count > 1)
        qsort(array->array.items, array->array.count, sizeof *array->array.items, value_compare);
    puts("ok");
}

static void do_copy(struct store *store, char *rest)
{
    char *from = next_word(&rest), *to = next_word(&rest);
    const struct value *value = table_find(&store->table, from);
    if (value != NULL)
        put(store, to, value_copy(value));
    puts(value != NULL ? "ok" : "none");
}

static bool contains(const struct value *value, const char *text)
{
    if (value->kind == KIND_STRING)
        return strstr(value->string, text) != NULL;
    if (value->kind == KIND_ARRAY)
        for (size_t i = 0; i < value->array.count; i++)
            if (contains(value->array.items[i], text))
                return true;
    if (value->kind == KIND_OBJECT)
        for (size_t i = 0; i < value->object.count; i++)
            if (contains(value->object.members[i].value, text))
                return true;
    return false;
}

static void do_find(struct store *store, char *rest)
{
    size_t count;
    char *text = next_word(&rest), **keys = table_keys(&store->table, "", &count);
    for (size_t i = 0; i < count; i++)
        if (contains(table_find(&store->table, keys[i]), text))
            puts(keys[i]);
    free(keys);
}

static void do_undo(struct store *store, char *rest)
{
    (void)rest;
    puts(undo(store) ? "ok" : "none");
}

static void do_dump(struct store *store, char *rest)
{
    size_t count;
    struct text text = {0};
    char **keys = table_keys(&store->table, next_word(&rest), &count);
    for (size_t i = 0; i < count; i++) {
        text_print(&text, "set %s ", keys[i]);
        write_value(&text, table_find(&store->table, keys[i]));
        text_add_byte(&text, '\n');
    }
    char *dump = text_take(&text);
    fputs(dump, stdout);
    free(dump);
    free(keys);
}

static const struct {
    const char *name;
    void (*run)(struct store *, char *);
} commands[] = {
    {"set", do_set},     {"get", do_get},   {"del", do_del},   {"keys", do_keys}, {"merge", do_merge},
    {"push", do_push},   {"sum", do_sum},   {"size", do_size}, {"sort", do_sort}, {"copy", do_copy},
    {"find", do_find},   {"undo", do_undo}, {"dump", do_dump},
};

static void run_line(struct store *store, char *line)
{
    char *name = next_word(&line);
    if (*name == 0 || *name == '#')
        return;
    for (size_t i = 0; i < sizeof commands / sizeof *commands; i++)
        if (strcmp(commands[i].name, name) == 0) {
            commands[i].run(store, line);
            return;
        }
    printf("error: there is no command %s\n", name);
}

int main(int count, char **argv)
{
    static const char *const bugs[] = {"none", "short-string", "old-array", "twice", "short-table", "read-past"};
    struct store store = {0};
    char *line = NULL;
    size_t room = 0;
    ssize_t length;
    for (size_t i = 0; count == 3 && i < sizeof bugs / sizeof *bugs; i++)
        if (strcmp(argv[1], "--bug") == 0 && strcmp(argv[2], bugs[i]) == 0)
            bug = (enum bug)i;
    while ((length = getline(&line, &room, stdin)) > 0) {
        if (line[length - 1] == '\n')
            line[length - 1] = 0;
        run_line(&store, line);
    }
    free(line);
    store_clear(&store);
    return 0;
}
