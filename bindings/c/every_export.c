/* Goes through every function of zugmeled.h, and every status that it can answer but 1450 for a journal that is full, which takes gigabytes,
 * and for 10^18 entries. Then it makes, saves, loads and closes 10,000 hives.
 *
 *     cc -O2 bindings/c/every_export.c -Wl,--wrap=malloc -Wl,--wrap=realloc \
 *         $(PKG_CONFIG_PATH=dist pkg-config --cflags --libs zugmeled) && ./a.out
 *
 * malloc and realloc are wrapped so that memory can be refused. The program ends with status 1 at the first call that answers otherwise.
 */
#include "zugmeled.h"

#include <stdio.h>
#include <stdlib.h>
#include <string.h>

#define TEXT(text) (const uint8_t *)(text), sizeof(text) - 1
#define IS(call, expected) is((uint64_t)(call), (uint64_t)(expected), #call, __LINE__)

#define NOBODY 63
#define MOMENT 133000000000000000u

static const uint8_t descriptor[20] = {1, 0, 4, 0x80};
static const uint8_t long_bytes[1048577];

/* ---- Memory that is refused ---- */

/* How many requests are granted before all others are refused. */
static long granted = -1;

void *__real_malloc(size_t size);
void *__real_realloc(void *block, size_t size);

static bool is_refused(void) {
    if (granted < 0)
        return false;
    if (granted == 0)
        return true;
    granted -= 1;
    return false;
}

void *__wrap_malloc(size_t size) { return is_refused() ? NULL : __real_malloc(size); }

void *__wrap_realloc(void *block, size_t size) { return is_refused() ? NULL : __real_realloc(block, size); }

/* ---- What is compared ---- */

static unsigned compared;

static void is(uint64_t found, uint64_t expected, const char *call, int line) {
    compared += 1;
    if (found == expected)
        return;
    granted = -1;
    printf("line %d: %s is %llu, not %llu\n", line, call, (unsigned long long)found, (unsigned long long)expected);
    exit(1);
}

/* Whether so many bytes are all the same. */
static bool are(const uint8_t *bytes, size_t length, uint8_t byte) {
    for (size_t at = 0; at < length; at++)
        if (bytes[at] != byte)
            return false;
    return true;
}

/* ---- What the tests begin with ---- */

static void make(zug_hive *hive, uint64_t *root) {
    IS(zug_hive_new(hive, TEXT("ROOT"), descriptor, sizeof descriptor, MOMENT), 0);
    IS(zug_open_root(hive, 0, MOMENT, ZUG_ALL_ACCESS, root), 0);
}

static uint64_t open_with(zug_hive *hive, uint64_t handle, uint32_t mask) {
    uint64_t opened = 7;
    IS(zug_open_key(hive, 0, MOMENT, handle, TEXT(""), mask, &opened), 0);
    return opened;
}

static uint64_t key(zug_hive *hive, uint64_t handle, const char *path) {
    uint64_t opened = 7;
    uint32_t disposition = 7;
    const uint8_t *bytes = (const uint8_t *)path;
    IS(zug_create_key(hive, 0, MOMENT, handle, bytes, strlen(path), ZUG_ALL_ACCESS, descriptor, 0, &opened, &disposition), 0);
    return opened;
}

/* A handle whose key was deleted. */
static uint64_t gone(zug_hive *hive, uint64_t root) {
    uint64_t opened = key(hive, root, "gone");
    IS(zug_delete_key(hive, 0, MOMENT, root, TEXT("gone")), 0);
    return opened;
}

/* Every function of a session, with the status that all of them answer; what goes out is 0, and the rooms are as they were. */
static void all_answer(zug_hive *hive, uint8_t session, uint64_t handle, uint32_t expected) {
    uint64_t a = 7, b = 7;
    uint32_t c = 7, d = 7, e = 7;
    uint8_t room[8], other[8];
    zug_info info;
    memset(room, 0xEE, sizeof room);
    memset(other, 0xEE, sizeof other);
    memset(&info, 7, sizeof info);
    IS(zug_open_key(hive, session, MOMENT, handle, TEXT("k"), 1, &a), expected);
    IS(zug_create_key(hive, session, MOMENT, handle, TEXT("k"), 1, descriptor, 20, &b, &c), expected);
    IS(a == 0 && b == 0 && c == 0, true);
    IS(zug_set_value(hive, session, MOMENT, handle, TEXT("v"), 3, TEXT("bytes")), expected);
    IS(zug_delete_value(hive, session, MOMENT, handle, TEXT("v")), expected);
    IS(zug_delete_key(hive, session, MOMENT, handle, TEXT("k")), expected);
    IS(zug_delete_tree(hive, session, MOMENT, handle, TEXT("k")), expected);
    IS(zug_set_security(hive, session, MOMENT, handle, descriptor, 20), expected);
    a = 7;
    IS(zug_notify(hive, session, MOMENT, handle, 4, true, &a), expected);
    IS(a, 0);
    IS(zug_query_value(hive, session, handle, TEXT("v"), room, 8, &c, &d), expected);
    IS(c == 0 && d == 0, true);
    c = d = e = 7;
    IS(zug_enum_key(hive, session, handle, 0, room, 8, &c, &a), expected);
    IS(a == 0 && c == 0, true);
    c = 7;
    IS(zug_enum_value(hive, session, handle, 0, room, 8, &c, other, 8, &d, &e), expected);
    IS(c == 0 && d == 0 && e == 0, true);
    IS(zug_query_info(hive, session, handle, &info), expected);
    IS(are((const uint8_t *)&info, sizeof info, 0), true);
    c = 7;
    IS(zug_get_security(hive, session, handle, room, 8, &c), expected);
    IS(c, 0);
    IS(are(room, 8, 0xEE) && are(other, 8, 0xEE), true);
    IS(zug_cause(hive, session, MOMENT, ZUG_SET, handle, TEXT("v"), 3, TEXT("bytes"), false), expected);
}

/* Those that take no handle. */
static void rest_answers(zug_hive *hive, uint8_t session, uint32_t expected) {
    uint64_t a = 7, b = 7;
    uint32_t c = 7;
    IS(zug_open_root(hive, session, MOMENT, 1, &a), expected);
    IS(a, 0);
    IS(zug_close(hive, session, MOMENT, 0), expected);
    a = 7;
    IS(zug_take_notice(hive, session, &a, &b, &c), expected);
    IS(a == 0 && b == 0 && c == 0, true);
}

/* ---- The tests ---- */

static void no_hive(void) {
    zug_hive hive = {0};
    uint64_t a = 7, b = 7;
    uint8_t room[4] = {9, 9, 9, 9};
    IS(zug_version(), ZUG_VERSION);
    all_answer(&hive, 0, 0, ZUG_INVALID_HANDLE);
    all_answer(&hive, 64, 0, ZUG_INVALID_HANDLE);
    rest_answers(&hive, 64, ZUG_INVALID_HANDLE);
    IS(zug_entries(&hive, &a, &b), ZUG_INVALID_HANDLE);
    IS(a == 0 && b == 0, true);
    a = b = 7;
    IS(zug_image_size(&hive, &a, &b), ZUG_INVALID_HANDLE);
    IS(a == 0 && b == 0, true);
    IS(zug_image_part(&hive, 1, 1, 0, 0, room, 4), ZUG_INVALID_HANDLE);
    IS(are(room, 4, 9), true);
    a = 7;
    IS(zug_hive_cut(&hive, &a), ZUG_INVALID_HANDLE);
    IS(a, 0);
    zug_subkey key = {9, 9, 9, 9, 9};
    zug_value value = {9, 9, 9};
    uint32_t count = 7;
    IS(zug_key_at(&hive, TEXT(""), &key, room, 4), ZUG_INVALID_HANDLE);
    IS(key.time == 0 && key.marks == 0 && are(room, 4, 9), true);
    IS(zug_subkeys_at(&hive, TEXT(""), 0, &key, 1, room, 4, &count), ZUG_INVALID_HANDLE);
    IS(count, 0);
    count = 7;
    IS(zug_values_at(&hive, TEXT(""), 0, &value, 1, room, 4, &count), ZUG_INVALID_HANDLE);
    IS(count == 0 && value.kind == 9 && are(room, 4, 9), true);
    count = 7;
    key.time = 9;
    IS(zug_subkeys_with_values_at(&hive, TEXT(""), 0, &key, 1, &value, 1, room, 4, &count), ZUG_INVALID_HANDLE);
    IS(count == 0 && key.time == 9 && value.kind == 9 && are(room, 4, 9), true);
    zug_hive_close(&hive);
    zug_hive_close(&hive);
}

/* NULL with a length of 0 is empty, wherever bytes or a room are given. */
static void nothing_given(void) {
    zug_hive hive = {0};
    uint64_t root = 7, opened = 7, size = 7, entries = 7;
    uint32_t kind = 7, length = 7, name_length = 7;
    uint8_t fault = 9;
    zug_subkey told;
    IS(zug_hive_new(&hive, NULL, 0, descriptor, 20, MOMENT), ZUG_INVALID_PARAMETER);
    IS(zug_hive_new(&hive, TEXT("ROOT"), NULL, 0, MOMENT), ZUG_INVALID_PARAMETER);
    IS(zug_hive_load(&hive, NULL, 0, &fault), ZUG_NOT_REGISTRY_FILE);
    IS(fault, 2);
    make(&hive, &root);
    IS(zug_open_key(&hive, 0, MOMENT, root, NULL, 0, 1, &opened), 0);
    IS(zug_create_key(&hive, 0, MOMENT, root, NULL, 0, 1, NULL, 0, &opened, &kind), 0);
    IS(zug_create_key(&hive, 0, MOMENT, root, TEXT("key"), 1, NULL, 0, &opened, &kind), 0);
    IS(zug_set_value(&hive, 0, MOMENT, root, NULL, 0, 3, NULL, 0), 0);
    IS(zug_query_value(&hive, 0, root, NULL, 0, NULL, 0, &kind, &length), 0);
    IS(kind == 3 && length == 0, true);
    IS(zug_enum_key(&hive, 0, root, 0, NULL, 0, &length, &size), ZUG_MORE_DATA);
    IS(length, 3);
    IS(zug_enum_value(&hive, 0, root, 0, NULL, 0, &name_length, NULL, 0, &kind, &length), 0);
    IS(zug_get_security(&hive, 0, root, NULL, 0, &length), ZUG_INSUFFICIENT_BUFFER);
    IS(length, 20);
    IS(zug_set_security(&hive, 0, MOMENT, root, NULL, 0), ZUG_INVALID_PARAMETER);
    IS(zug_delete_value(&hive, 0, MOMENT, root, NULL, 0), 0);
    IS(zug_delete_key(&hive, 0, MOMENT, root, NULL, 0), ZUG_INVALID_PARAMETER);
    IS(zug_cause(&hive, 0, MOMENT, ZUG_SET, root, NULL, 0, 3, NULL, 0, false), 0);
    IS(zug_image_size(&hive, &size, &entries), 0);
    IS(zug_image_part(&hive, MOMENT, 5, entries, 0, NULL, 0), 0);
    IS(zug_key_at(&hive, NULL, 0, &told, NULL, 0), ZUG_MORE_DATA);
    IS(told.name_size == 4 && told.subkeys == 1, true);
    IS(zug_subkeys_at(&hive, NULL, 0, 0, NULL, 0, NULL, 0, &length), ZUG_MORE_DATA);
    IS(zug_values_at(&hive, NULL, 0, 0, NULL, 0, NULL, 0, &length), ZUG_NO_MORE_ITEMS);
    IS(zug_subkeys_with_values_at(&hive, NULL, 0, 0, NULL, 0, NULL, 0, NULL, 0, &length), ZUG_MORE_DATA);
    IS(zug_delete_tree(&hive, 0, MOMENT, root, NULL, 0), 0);
    zug_hive_close(&hive);
}

static void lives(void) {
    zug_hive hive = {0};
    uint64_t root = 7;
    uint8_t fault = 9;
    IS(zug_hive_new(&hive, TEXT(""), descriptor, 20, MOMENT), ZUG_INVALID_PARAMETER);
    IS(zug_hive_new(&hive, TEXT("a\\b"), descriptor, 20, MOMENT), ZUG_INVALID_PARAMETER);
    IS(zug_hive_new(&hive, TEXT("ROOT"), descriptor, 0, MOMENT), ZUG_INVALID_PARAMETER);
    IS(zug_hive_new(&hive, TEXT("ROOT"), long_bytes, 65536, MOMENT), ZUG_INVALID_PARAMETER);
    IS(hive.holds, 0);
    make(&hive, &root);
    IS(zug_hive_new(&hive, TEXT("ROOT"), descriptor, 20, MOMENT), ZUG_ALREADY_EXISTS);
    IS(zug_hive_load(&hive, TEXT("regf"), &fault), ZUG_ALREADY_EXISTS);
    IS(fault, 0);
    all_answer(&hive, 64, root, ZUG_INVALID_PARAMETER);
    all_answer(&hive, 255, root, ZUG_INVALID_PARAMETER);
    rest_answers(&hive, 64, ZUG_INVALID_PARAMETER);
    all_answer(&hive, NOBODY, root, ZUG_INVALID_HANDLE);
    IS(zug_close(&hive, NOBODY, MOMENT, root), ZUG_INVALID_HANDLE);
    all_answer(&hive, 0, gone(&hive, root), ZUG_KEY_DELETED);
    zug_hive_close(&hive);
    IS(hive.holds, 0);
}

static void opens(zug_hive *hive, uint64_t root) {
    uint64_t opened = 7, again = 7;
    uint32_t disposition = 7;
    IS(zug_open_root(hive, 0, MOMENT, 0x100, &opened), ZUG_INVALID_PARAMETER);
    IS(opened, 0);
    IS(zug_open_key(hive, 0, MOMENT, root, TEXT("none"), 1, &opened), ZUG_FILE_NOT_FOUND);
    IS(zug_open_key(hive, 0, MOMENT, root, TEXT("a\\\\b"), 1, &opened), ZUG_INVALID_PARAMETER);
    IS(zug_open_key(hive, 0, MOMENT, root, TEXT(""), 0x100, &opened), ZUG_INVALID_PARAMETER);
    IS(zug_create_key(hive, 0, MOMENT, root, TEXT("\\"), 1, descriptor, 0, &opened, &disposition), ZUG_INVALID_PARAMETER);
    IS(zug_create_key(hive, 0, MOMENT, root, TEXT("k"), 0x100, descriptor, 0, &opened, &disposition), ZUG_INVALID_PARAMETER);
    IS(zug_create_key(hive, 0, MOMENT, root, TEXT("k"), 1, long_bytes, 65536, &opened, &disposition), ZUG_INVALID_PARAMETER);
    IS(zug_create_key(hive, 0, MOMENT, root, TEXT("1\\2\\3\\4\\5\\6\\7\\8\\9\\a\\b\\c\\d\\e\\f\\g\\h\\i\\j\\k\\l\\m\\n\\o\\p\\q\\r\\s\\t\\u\\v\\w\\x"),
                      1, descriptor, 0, &opened, &disposition), ZUG_NO_SYSTEM_RESOURCES);
    IS(opened == 0 && disposition == 0, true);
    IS(zug_create_key(hive, 0, MOMENT, root, TEXT("Soft\\Zug"), ZUG_ALL_ACCESS, descriptor, 20, &opened, &disposition), 0);
    IS(disposition, 1);
    IS(zug_create_key(hive, 0, MOMENT, root, TEXT("SOFT\\zug"), ZUG_ALL_ACCESS, descriptor, 0, &again, &disposition), 0);
    IS(disposition == 2 && again > opened, true);
    IS(zug_open_key(hive, 0, MOMENT, root, TEXT("soft\\ZUG"), 1, &again), 0);
    IS(zug_close(hive, 0, MOMENT, again), 0);
    IS(zug_close(hive, 0, MOMENT, again), ZUG_INVALID_HANDLE);
}

static void values(zug_hive *hive, uint64_t handle) {
    uint64_t poor = open_with(hive, handle, 0);
    uint32_t kind = 7, size = 7;
    uint8_t room[8];
    memset(room, 0xEE, sizeof room);
    IS(zug_set_value(hive, 0, MOMENT, poor, TEXT("v"), 3, TEXT("bytes")), ZUG_ACCESS_DENIED);
    IS(zug_delete_value(hive, 0, MOMENT, poor, TEXT("v")), ZUG_ACCESS_DENIED);
    IS(zug_query_value(hive, 0, poor, TEXT("v"), room, 8, &kind, &size), ZUG_ACCESS_DENIED);
    IS(zug_set_value(hive, 0, MOMENT, handle, TEXT("\x80"), 3, TEXT("bytes")), ZUG_INVALID_PARAMETER);
    IS(zug_set_value(hive, 0, MOMENT, handle, TEXT("v"), 3, long_bytes, 1048577), ZUG_INVALID_PARAMETER);
    IS(zug_delete_value(hive, 0, MOMENT, handle, TEXT("\x80")), ZUG_INVALID_PARAMETER);
    IS(zug_query_value(hive, 0, handle, TEXT("\x80"), room, 8, &kind, &size), ZUG_INVALID_PARAMETER);
    IS(zug_delete_value(hive, 0, MOMENT, handle, TEXT("v")), ZUG_FILE_NOT_FOUND);
    IS(zug_query_value(hive, 0, handle, TEXT("v"), room, 8, &kind, &size), ZUG_FILE_NOT_FOUND);
    IS(zug_set_value(hive, 0, MOMENT, handle, TEXT("v"), 3, TEXT("bytes")), 0);
    IS(zug_query_value(hive, 0, handle, TEXT("V"), room, 4, &kind, &size), ZUG_MORE_DATA);
    IS(kind == 3 && size == 5 && are(room, 8, 0xEE), true);
    IS(zug_query_value(hive, 0, handle, TEXT("V"), room, 0, &kind, &size), 0);
    IS(kind == 3 && size == 5 && are(room, 8, 0xEE), true);
    IS(zug_query_value(hive, 0, handle, TEXT("V"), room, 8, &kind, &size), 0);
    IS(memcmp(room, "bytes\xEE\xEE\xEE", 8), 0);
    IS(zug_set_value(hive, 0, MOMENT, handle, TEXT(""), 1, TEXT("")), 0);
    IS(zug_query_value(hive, 0, handle, TEXT(""), room, 8, &kind, &size), 0);
    IS(kind == 1 && size == 0, true);
    IS(zug_delete_value(hive, 0, MOMENT, handle, TEXT("")), 0);
    IS(zug_close(hive, 0, MOMENT, poor), 0);
}

static void lists_of_keys(zug_hive *hive, uint64_t root) {
    uint64_t poor = open_with(hive, root, 0), time = 7;
    uint32_t size = 7;
    uint8_t room[8];
    memset(room, 0xEE, sizeof room);
    IS(zug_enum_key(hive, 0, poor, 0, room, 8, &size, &time), ZUG_ACCESS_DENIED);
    IS(zug_enum_key(hive, 0, root, 99, room, 8, &size, &time), ZUG_NO_MORE_ITEMS);
    IS(zug_enum_key(hive, 0, root, 0, room, 3, &size, &time), ZUG_MORE_DATA);
    IS(size == 4 && time == 0 && are(room, 8, 0xEE), true);
    IS(zug_enum_key(hive, 0, root, 0, room, 8, &size, &time), 0);
    IS(size == 4 && time == MOMENT && memcmp(room, "Soft\xEE\xEE\xEE\xEE", 8) == 0, true);
    IS(zug_close(hive, 0, MOMENT, poor), 0);
}

static void lists_of_values(zug_hive *hive, uint64_t handle) {
    uint64_t poor = open_with(hive, handle, 0);
    uint32_t name_size = 7, kind = 7, size = 7;
    uint8_t name[4], room[8];
    memset(name, 0xEE, sizeof name);
    memset(room, 0xEE, sizeof room);
    IS(zug_enum_value(hive, 0, poor, 0, name, 4, &name_size, room, 8, &kind, &size), ZUG_ACCESS_DENIED);
    IS(zug_enum_value(hive, 0, handle, 99, name, 4, &name_size, room, 8, &kind, &size), ZUG_NO_MORE_ITEMS);
    IS(zug_enum_value(hive, 0, handle, 0, name, 0, &name_size, room, 8, &kind, &size), ZUG_MORE_DATA);
    IS(name_size == 0 && kind == 3 && size == 5, true);
    IS(zug_enum_value(hive, 0, handle, 0, name, 4, &name_size, room, 4, &kind, &size), ZUG_MORE_DATA);
    IS(are(name, 4, 0xEE) && are(room, 8, 0xEE), true);
    IS(zug_enum_value(hive, 0, handle, 0, name, 4, &name_size, room, 0, &kind, &size), 0);
    IS(name_size == 1 && name[0] == 'v' && size == 5 && are(room, 8, 0xEE), true);
    IS(zug_enum_value(hive, 0, handle, 0, name, 4, &name_size, room, 8, &kind, &size), 0);
    IS(memcmp(room, "bytes\xEE\xEE\xEE", 8) == 0 && are(name + 1, 3, 0xEE), true);
    IS(zug_close(hive, 0, MOMENT, poor), 0);
}

/* The same by paths, without a handle. */
static void keys_by_path(zug_hive *hive) {
    zug_subkey key, keys[3] = {{9, 9, 9, 9, 9}, {9, 9, 9, 9, 9}, {9, 9, 9, 9, 9}};
    uint32_t count = 7;
    uint8_t room[8];
    memset(room, 0xEE, sizeof room);
    IS(zug_key_at(hive, TEXT("none"), &key, room, 8), ZUG_FILE_NOT_FOUND);
    IS(zug_key_at(hive, TEXT("\\"), &key, room, 8), ZUG_INVALID_PARAMETER);
    IS(key.time == 0 && key.name_size == 0 && are(room, 8, 0xEE), true);
    IS(zug_key_at(hive, TEXT(""), &key, room, 3), ZUG_MORE_DATA);
    IS(key.time == MOMENT && key.name_size == 4 && key.values == 0 && key.marks == 8 && are(room, 8, 0xEE), true);
    IS(zug_key_at(hive, TEXT("SOFT\\zug"), &key, room, 3), 0);
    IS(key.name_size == 3 && key.subkeys == 0 && key.values == 1 && key.marks == 0 && memcmp(room, "Zug\xEE", 4) == 0, true);
    memset(room, 0xEE, sizeof room);
    IS(zug_subkeys_at(hive, TEXT("none"), 0, keys, 3, room, 8, &count), ZUG_FILE_NOT_FOUND);
    IS(zug_subkeys_at(hive, TEXT("\\"), 0, keys, 3, room, 8, &count), ZUG_INVALID_PARAMETER);
    IS(zug_subkeys_at(hive, TEXT(""), 99, keys, 3, room, 8, &count), ZUG_NO_MORE_ITEMS);
    IS(zug_subkeys_at(hive, TEXT(""), 0, keys, 0, room, 8, &count), ZUG_MORE_DATA);
    IS(count == 0 && keys[0].time == 9 && are(room, 8, 0xEE), true);
    IS(zug_subkeys_at(hive, TEXT(""), 0, keys, 3, room, 3, &count), ZUG_MORE_DATA);
    IS(count == 0 && keys[0].name_size == 4 && keys[0].subkeys == 1 && keys[1].time == 9 && are(room, 8, 0xEE), true);
    IS(zug_subkeys_at(hive, TEXT(""), 0, keys, 3, room, 8, &count), 0);
    IS(count == 1 && keys[0].time == MOMENT && keys[1].time == 9 && memcmp(room, "Soft\xEE\xEE\xEE\xEE", 8) == 0, true);
}

/* Subkeys that have place with all their values: Soft\Abc has one, and Soft\Zug behind it two. */
static void subkeys_with_values(zug_hive *hive, uint64_t root, uint64_t zug) {
    uint64_t abc = key(hive, root, "Soft\\Abc");
    zug_subkey keys[2] = {{9, 9, 9, 9, 9}, {9, 9, 9, 9, 9}};
    zug_value values[3] = {{9, 9, 9}, {9, 9, 9}, {9, 9, 9}};
    uint32_t count = 7;
    uint8_t room[24];
    memset(room, 0xEE, sizeof room);
    IS(zug_set_value(hive, 0, MOMENT, abc, TEXT("n"), 3, TEXT("no")), 0);
    IS(zug_set_value(hive, 0, MOMENT, zug, TEXT("w"), 4, TEXT("more")), 0);
    IS(zug_subkeys_with_values_at(hive, TEXT("none"), 0, keys, 2, values, 3, room, 24, &count), ZUG_FILE_NOT_FOUND);
    IS(zug_subkeys_with_values_at(hive, TEXT("\\"), 0, keys, 2, values, 3, room, 24, &count), ZUG_INVALID_PARAMETER);
    IS(zug_subkeys_with_values_at(hive, TEXT("Soft\\Zug"), 0, keys, 2, values, 3, room, 24, &count), ZUG_NO_MORE_ITEMS);
    IS(zug_subkeys_with_values_at(hive, TEXT("Soft"), 2, keys, 2, values, 3, room, 24, &count), ZUG_NO_MORE_ITEMS);
    IS(zug_subkeys_with_values_at(hive, TEXT("Soft"), 1, keys, 0, values, 3, room, 24, &count), ZUG_MORE_DATA);
    IS(zug_subkeys_with_values_at(hive, TEXT("Soft"), 1, keys, 2, values, 1, room, 24, &count), ZUG_MORE_DATA);
    IS(zug_subkeys_with_values_at(hive, TEXT("Soft"), 1, keys, 2, values, 3, room, 13, &count), ZUG_MORE_DATA);
    IS(count == 0 && keys[0].time == 9 && values[0].kind == 9 && are(room, 24, 0xEE), true);
    IS(zug_subkeys_with_values_at(hive, TEXT(""), 0, keys, 2, values, 0, room, 4, &count), 0);
    IS(count == 1 && keys[0].name_size == 4 && keys[1].time == 9 && values[0].kind == 9 && memcmp(room, "Soft\xEE", 5) == 0, true);
    IS(zug_subkeys_with_values_at(hive, TEXT("Soft"), 0, keys, 2, values, 2, room, 24, &count), 0);
    IS(count == 1 && keys[0].values == 1 && keys[1].time == 9 && values[0].size == 2 && values[1].kind == 9 && memcmp(room, "Abcnno\xEE", 7) == 0, true);
    IS(zug_subkeys_with_values_at(hive, TEXT("Soft"), 1, keys, 2, values, 2, room, 14, &count), 0);
    IS(count == 1 && keys[0].values == 2 && values[0].kind == 3 && values[1].kind == 4 && values[2].kind == 9, true);
    IS(memcmp(room, "Zugvbyteswmore\xEE", 15), 0);
    IS(zug_subkeys_with_values_at(hive, TEXT("Soft"), 0, keys, 2, values, 3, room, 20, &count), 0);
    IS(count == 2 && keys[1].values == 2 && values[0].size == 2 && values[2].kind == 4, true);
    IS(memcmp(room, "AbcnnoZugvbyteswmore\xEE", 21), 0);
    IS(zug_delete_value(hive, 0, MOMENT, zug, TEXT("w")), 0);
    IS(zug_close(hive, 0, MOMENT, abc), 0);
    IS(zug_delete_key(hive, 0, MOMENT, root, TEXT("Soft\\Abc")), 0);
}

static void values_by_path(zug_hive *hive, uint64_t handle) {
    zug_value values[2] = {{9, 9, 9}, {9, 9, 9}};
    uint32_t count = 7;
    uint8_t room[16];
    memset(room, 0xEE, sizeof room);
    IS(zug_set_value(hive, 0, MOMENT, handle, TEXT("w"), 4, TEXT("more")), 0);
    IS(zug_values_at(hive, TEXT("none"), 0, values, 2, room, 16, &count), ZUG_FILE_NOT_FOUND);
    IS(zug_values_at(hive, TEXT("\\"), 0, values, 2, room, 16, &count), ZUG_INVALID_PARAMETER);
    IS(zug_values_at(hive, TEXT("Soft"), 0, values, 2, room, 16, &count), ZUG_NO_MORE_ITEMS);
    IS(zug_values_at(hive, TEXT("soft\\zug"), 0, values, 2, room, 5, &count), ZUG_MORE_DATA);
    IS(count == 0 && values[0].name_size == 1 && values[0].kind == 3 && values[0].size == 5 && are(room, 16, 0xEE), true);
    IS(zug_values_at(hive, TEXT("soft\\zug"), 0, values, 2, room, 10, &count), 0);
    IS(count == 1 && memcmp(room, "vbytes\xEE", 7) == 0, true);
    IS(zug_values_at(hive, TEXT("soft\\zug"), 0, values, 2, room, 16, &count), 0);
    IS(count == 2 && values[1].name_size == 1 && values[1].kind == 4 && values[1].size == 4 && memcmp(room, "vbyteswmore", 11) == 0, true);
    IS(zug_values_at(hive, TEXT("soft\\zug"), 1, values, 1, room, 16, &count), 0);
    IS(count == 1 && memcmp(room, "wmore", 5) == 0, true);
    IS(zug_delete_value(hive, 0, MOMENT, handle, TEXT("w")), 0);
}

static void numbers(zug_hive *hive, uint64_t handle) {
    uint64_t poor = open_with(hive, handle, 0);
    zug_info info;
    IS(zug_query_info(hive, 0, poor, &info), ZUG_ACCESS_DENIED);
    IS(zug_query_info(hive, 0, handle, &info), 0);
    IS(info.subkeys == 0 && info.longest_key == 0 && info.values == 1 && info.longest_value == 1, true);
    IS(info.largest == 5 && info.security == 20 && info.time == MOMENT, true);
    IS(zug_close(hive, 0, MOMENT, poor), 0);
}

static void security(zug_hive *hive, uint64_t handle) {
    uint64_t poor = open_with(hive, handle, 0);
    uint32_t size = 7;
    uint8_t room[24];
    memset(room, 0xEE, sizeof room);
    IS(zug_set_security(hive, 0, MOMENT, poor, descriptor, 20), ZUG_ACCESS_DENIED);
    IS(zug_set_security(hive, 0, MOMENT, handle, descriptor, 0), ZUG_INVALID_PARAMETER);
    IS(zug_set_security(hive, 0, MOMENT, handle, long_bytes, 65536), ZUG_INVALID_PARAMETER);
    IS(zug_set_security(hive, 0, MOMENT, handle, TEXT("another")), 0);
    IS(zug_get_security(hive, 0, poor, room, 24, &size), ZUG_ACCESS_DENIED);
    IS(zug_get_security(hive, 0, handle, room, 6, &size), ZUG_INSUFFICIENT_BUFFER);
    IS(size == 7 && are(room, 24, 0xEE), true);
    IS(zug_get_security(hive, 0, handle, room, 24, &size), 0);
    IS(size == 7 && memcmp(room, "another\xEE", 8) == 0, true);
    IS(zug_close(hive, 0, MOMENT, poor), 0);
}

static void deletions(zug_hive *hive, uint64_t root) {
    uint64_t poor = open_with(hive, root, 0), key_there = key(hive, root, "tree\\below");
    IS(zug_delete_key(hive, 0, MOMENT, root, TEXT("tree")), ZUG_ACCESS_DENIED);
    IS(zug_delete_key(hive, 0, MOMENT, root, TEXT("")), ZUG_INVALID_PARAMETER);
    IS(zug_delete_key(hive, 0, MOMENT, root, TEXT("none")), ZUG_FILE_NOT_FOUND);
    IS(zug_delete_tree(hive, 0, MOMENT, poor, TEXT("tree")), ZUG_ACCESS_DENIED);
    IS(zug_delete_tree(hive, 0, MOMENT, root, TEXT("\\")), ZUG_INVALID_PARAMETER);
    IS(zug_delete_tree(hive, 0, MOMENT, root, TEXT("none")), ZUG_FILE_NOT_FOUND);
    IS(zug_delete_tree(hive, 0, MOMENT, root, TEXT("tree")), 0);
    IS(zug_close(hive, 0, MOMENT, key_there), 0);
    IS(zug_close(hive, 0, MOMENT, poor), 0);
}

static void notices(zug_hive *hive, uint64_t root) {
    uint64_t poor = open_with(hive, root, 0), there = key(hive, root, "seen"), watch = 7, first, entry = 7, next = 7, kept = 7;
    uint32_t reason = 7;
    IS(zug_notify(hive, 0, MOMENT, poor, 4, false, &watch), ZUG_ACCESS_DENIED);
    IS(zug_notify(hive, 0, MOMENT, root, 0, false, &watch), ZUG_INVALID_PARAMETER);
    IS(zug_notify(hive, 0, MOMENT, root, 4, true, &first), 0);
    IS(zug_take_notice(hive, 0, &watch, &entry, &reason), ZUG_NO_MORE_ITEMS);
    IS(watch == 0 && entry == 0 && reason == 0, true);
    IS(zug_entries(hive, &next, &kept), 0);
    IS(zug_set_value(hive, 0, MOMENT, there, TEXT("v"), 3, TEXT("x")), 0);
    IS(zug_take_notice(hive, 0, &watch, &entry, &reason), 0);
    IS(watch == first && entry == next && reason == ZUG_MATCHED, true);
    IS(zug_notify(hive, 0, MOMENT, there, 4, false, &first), 0);
    IS(zug_delete_key(hive, 0, MOMENT, root, TEXT("seen")), 0);
    IS(zug_take_notice(hive, 0, &watch, &entry, &reason), 0);
    IS(watch == first && reason == ZUG_GONE, true);
    IS(zug_close(hive, 0, MOMENT, there), 0);
    there = key(hive, root, "seen");
    IS(zug_notify(hive, 0, MOMENT, there, 4, false, &first), 0);
    IS(zug_close(hive, 0, MOMENT, there), 0);
    IS(zug_take_notice(hive, 0, &watch, &entry, &reason), 0);
    IS(watch == first && reason == ZUG_CLOSED, true);
    IS(zug_close(hive, 0, MOMENT, poor), 0);
}

static void causes(zug_hive *hive, uint64_t root) {
    uint64_t poor = open_with(hive, root, 0);
    IS(zug_cause(hive, 0, MOMENT, ZUG_OPEN_ROOT, 0, TEXT(""), 0x100, TEXT(""), false), ZUG_INVALID_PARAMETER);
    IS(zug_cause(hive, 0, MOMENT, ZUG_OPEN_ROOT, 0, TEXT(""), 1, TEXT(""), false), 0);
    IS(zug_cause(hive, 0, MOMENT, ZUG_OPEN_KEY, root, TEXT("none"), 1, TEXT(""), false), ZUG_FILE_NOT_FOUND);
    IS(zug_cause(hive, 0, MOMENT, ZUG_CREATE_KEY, root, TEXT("none"), 1, long_bytes, 65536, false), ZUG_INVALID_PARAMETER);
    IS(zug_cause(hive, 0, MOMENT, ZUG_CREATE_KEY, root, TEXT("none"), 1, TEXT(""), false), 0);
    IS(zug_cause(hive, 0, MOMENT, ZUG_SET, poor, TEXT("v"), 3, TEXT("x"), false), ZUG_ACCESS_DENIED);
    IS(zug_cause(hive, 0, MOMENT, ZUG_DELETE_VALUE, root, TEXT("none"), 0, TEXT(""), false), ZUG_FILE_NOT_FOUND);
    IS(zug_cause(hive, 0, MOMENT, ZUG_DELETE_KEY, root, TEXT("Soft"), 0, TEXT(""), false), ZUG_ACCESS_DENIED);
    IS(zug_cause(hive, 0, MOMENT, ZUG_DELETE_TREE, root, TEXT("Soft"), 0, TEXT(""), false), 0);
    IS(zug_cause(hive, 0, MOMENT, ZUG_SET_SECURITY, root, TEXT(""), 0, TEXT(""), false), ZUG_INVALID_PARAMETER);
    IS(zug_cause(hive, 0, MOMENT, ZUG_NOTIFY_CHANGE, root, TEXT(""), 16, TEXT(""), false), ZUG_INVALID_PARAMETER);
    IS(zug_cause(hive, 0, MOMENT, ZUG_NOTIFY_CHANGE, root, TEXT(""), 4, TEXT(""), true), 0);
    IS(zug_cause(hive, 0, MOMENT, ZUG_CLOSE, 99999, TEXT(""), 0, TEXT(""), false), ZUG_INVALID_HANDLE);
    IS(zug_cause(hive, 0, MOMENT, 10, root, TEXT(""), 0, TEXT(""), false), ZUG_INVALID_PARAMETER);
    IS(zug_cause(hive, 0, MOMENT, UINT32_MAX, root, TEXT(""), 0, TEXT(""), false), ZUG_INVALID_PARAMETER);
    IS(zug_close(hive, 0, MOMENT, poor), 0);
}

/* 1450 where a session has as many handles or notices to come as it may, or a key as many values. */
static void counts(void) {
    zug_hive hive = {0};
    uint64_t root = 7, opened = 7, last = 7, watch = 7;
    char name[8];
    make(&hive, &root);
    for (unsigned made = 0; made < 16384; made++) {
        IS(zug_open_root(&hive, 1, MOMENT, ZUG_NOTIFY, &opened), 0);
        snprintf(name, sizeof name, "%u", made);
        IS(zug_set_value(&hive, 0, MOMENT, root, (const uint8_t *)name, strlen(name), 3, TEXT("")), 0);
    }
    IS(zug_set_value(&hive, 0, MOMENT, root, TEXT("more"), 3, TEXT("")), ZUG_NO_SYSTEM_RESOURCES);
    IS(zug_open_root(&hive, 1, MOMENT, 1, &last), ZUG_NO_SYSTEM_RESOURCES);
    IS(zug_open_key(&hive, 1, MOMENT, opened, TEXT(""), 1, &last), ZUG_NO_SYSTEM_RESOURCES);
    for (unsigned made = 0; made < 4096; made++)
        IS(zug_notify(&hive, 1, MOMENT, opened, 1, false, &watch), 0);
    IS(zug_notify(&hive, 1, MOMENT, opened, 1, false, &watch), ZUG_NO_SYSTEM_RESOURCES);
    zug_hive_close(&hive);
}

/* Sets values of so many bytes until the bins have no room for one more. Their entries are cut meanwhile, for which no handle may be open. */
static unsigned fill(zug_hive *hive, char kind, size_t size) {
    char name[8];
    for (unsigned made = 0;; made++) {
        uint64_t root = 7, cut = 7;
        IS(zug_open_root(hive, 0, MOMENT, ZUG_ALL_ACCESS, &root), 0);
        snprintf(name, sizeof name, "%c%u", kind, made);
        uint32_t status = zug_set_value(hive, 0, MOMENT, root, (const uint8_t *)name, strlen(name), 3, long_bytes, size);
        IS(zug_close(hive, 0, MOMENT, root), 0);
        IS(zug_hive_cut(hive, &cut), 0);
        if (status) {
            IS(status, ZUG_NO_SYSTEM_RESOURCES);
            return made;
        }
    }
}

/* 1450 where the bins, of 256 MiB at most, have no room. */
static void full_bins(void) {
    zug_hive hive = {0};
    uint64_t root = 7, opened = 7;
    uint32_t disposition = 7;
    make(&hive, &root);
    IS(zug_close(&hive, 0, MOMENT, root), 0);
    uint64_t cut = 7;
    IS(zug_hive_cut(&hive, &cut), 0);
    unsigned made = fill(&hive, 'm', ZUG_DATA_LIMIT);
    IS(made > 200 && made < 256, true);
    fill(&hive, 'k', 16000);
    IS(zug_open_root(&hive, 0, MOMENT, ZUG_ALL_ACCESS, &root), 0);
    IS(zug_set_security(&hive, 0, MOMENT, root, long_bytes, ZUG_DESCRIPTOR_LIMIT), ZUG_NO_SYSTEM_RESOURCES);
    IS(zug_create_key(&hive, 0, MOMENT, root, TEXT("k"), 1, long_bytes, ZUG_DESCRIPTOR_LIMIT, &opened, &disposition), ZUG_NO_SYSTEM_RESOURCES);
    IS(opened == 0 && disposition == 0, true);
    /* What a value leaves are cells of some 16,000 bytes each. */
    IS(zug_set_security(&hive, 0, MOMENT, root, long_bytes, 16000), ZUG_NO_SYSTEM_RESOURCES);
    IS(zug_delete_value(&hive, 0, MOMENT, root, TEXT("m0")), 0);
    IS(zug_set_security(&hive, 0, MOMENT, root, long_bytes, 16000), 0);
    zug_hive_close(&hive);
}

static void journals(void) {
    zug_hive hive = {0};
    uint64_t root = 7, entries = 7, kept = 7, cut = 7;
    make(&hive, &root);
    IS(zug_set_value(&hive, 0, MOMENT, root, TEXT("v"), 3, TEXT("bytes")), 0);
    IS(zug_hive_cut(&hive, &cut), ZUG_BUSY);
    IS(cut, 0);
    IS(zug_close(&hive, 0, MOMENT, root), 0);
    IS(zug_entries(&hive, &entries, &kept), 0);
    IS(entries == 3 && kept == 3, true);
    IS(zug_hive_cut(&hive, &cut), 0);
    IS(zug_entries(&hive, &entries, &kept), 0);
    IS(cut == 3 && entries == 3 && kept == 0, true);
    IS(zug_open_root(&hive, 0, MOMENT, 1, &root), 0);
    IS(root, 3);
    zug_hive_close(&hive);
}

/* The image in parts of so many bytes, each in a room of two bytes more, which keep what they had. */
static uint8_t *image_by(zug_hive *hive, size_t part, uint64_t *size) {
    uint64_t entries = 7;
    IS(zug_image_size(hive, size, &entries), 0);
    uint8_t *image = malloc(*size), *room = malloc(part + 2);
    for (uint64_t at = 0; at < *size; at += part) {
        size_t length = *size - at < part ? *size - at : part;
        memset(room, 0xEE, part + 2);
        IS(zug_image_part(hive, MOMENT, 5, entries, at, room, length), 0);
        IS(room[length] == 0xEE && room[length + 1] == 0xEE, true);
        memcpy(image + at, room, length);
    }
    free(room);
    return image;
}

static void images(zug_hive *hive) {
    uint64_t size = 7, again = 7, entries = 7, opened = 7;
    uint8_t room[8];
    uint8_t *whole = image_by(hive, 1 << 20, &size);
    const size_t parts[] = {1, 7, 4095, 4096, 4097, 5000};
    for (unsigned at = 0; at < sizeof parts / sizeof *parts; at++) {
        uint8_t *image = image_by(hive, parts[at], &again);
        IS(size == again && memcmp(whole, image, size) == 0, true);
        free(image);
    }
    memset(room, 0xEE, sizeof room);
    IS(zug_image_size(hive, &size, &entries), 0);
    IS(zug_image_part(hive, MOMENT, 5, entries, size, room, 8), 0);
    IS(zug_image_part(hive, MOMENT, 5, entries, UINT64_MAX, room, 8), 0);
    IS(zug_image_part(hive, MOMENT, 5, entries + 1, 0, room, 8), ZUG_INVALID_PARAMETER);
    IS(are(room, 8, 0xEE), true);
    IS(zug_image_part(hive, MOMENT, 5, entries, size - 4, room, 8), 0);
    IS(memcmp(room, whole + size - 4, 4) == 0 && are(room + 4, 4, 0xEE), true);
    IS(zug_open_root(hive, 0, MOMENT, 1, &opened), 0);
    IS(zug_image_part(hive, MOMENT, 5, entries, 0, room, 8), ZUG_INVALID_PARAMETER);
    free(whole);
}

/* An image with one byte of it another, and the fault that it meets. */
static void meets(uint8_t *image, uint64_t size, uint64_t at, uint8_t byte, uint8_t expected) {
    zug_hive hive = {0};
    uint8_t fault = 9, was = image[at];
    image[at] = byte;
    IS(zug_hive_load(&hive, image, size, &fault), ZUG_NOT_REGISTRY_FILE);
    IS(fault, expected);
    image[at] = was;
}

/* The same with the second sequence number another, and the checksum right again. */
static void meets_dirty(uint8_t *image, uint64_t size) {
    image[8] ^= 1;
    meets(image, size, 508, image[508] ^ 1, 6);
    image[8] ^= 1;
}

static void loads(zug_hive *hive) {
    zug_hive other = {0};
    uint64_t size = 7, handle = 7;
    uint8_t fault = 9;
    uint8_t *image = image_by(hive, 4096, &size);
    IS(zug_hive_load(&other, image, 0, &fault), ZUG_NOT_REGISTRY_FILE);
    IS(fault, 2);
    IS(zug_hive_load(&other, image, size - 1, &fault), ZUG_NOT_REGISTRY_FILE);
    IS(fault, 2);
    meets(image, size, 0, 'x', 3);
    meets(image, size, 20, 9, 4);
    meets(image, size, 508, (uint8_t)(image[508] + 1), 5);
    meets_dirty(image, size);
    meets(image, size, 4096, 'x', 7);
    meets(image, size, 4096 + 32, 1, 8);
    meets(image, size, 4096 + 36, 'x', 9);
    meets(image, size, 4096 + 36 + 76, 0x80, 12);
    IS(other.holds, 0);
    IS(zug_hive_load(&other, image, size, &fault), 0);
    IS(fault, 0);
    IS(zug_open_root(&other, 0, MOMENT, 1, &handle), 0);
    IS(handle, 0);
    zug_hive_close(&other);
    free(image);
}

/* ---- Memory that is refused ---- */

/* Each function that may answer 8, at one place where memory is refused after another; it answers 8 at least once, and then succeeds. Names
 * and data have more than 16 bytes: fewer need no memory. */
static void until_granted(uint32_t (*call)(zug_hive *, uint64_t), zug_hive *hive, uint64_t handle) {
    unsigned refused = 0;
    for (long grants = 0;; grants++) {
        granted = grants;
        uint32_t status = call(hive, handle);
        granted = -1;
        if (status == 0)
            break;
        IS(status, ZUG_NOT_ENOUGH_MEMORY);
        refused += 1;
    }
    IS(refused > 0, true);
}

/* The same of a function that takes memory only now and then: it is called until it does. */
static void until_refused(uint32_t (*call)(zug_hive *, uint64_t), zug_hive *hive, uint64_t handle) {
    uint32_t status = 0;
    granted = 0;
    for (unsigned made = 0; made < 4096 && status == 0; made++)
        status = call(hive, handle);
    granted = -1;
    IS(status, ZUG_NOT_ENOUGH_MEMORY);
}

static uint8_t *saved;
static uint64_t saved_size;

static uint32_t new_call(zug_hive *hive, uint64_t handle) {
    (void)handle;
    return zug_hive_new(hive, TEXT("ROOT"), descriptor, 20, MOMENT);
}

static uint32_t load_call(zug_hive *hive, uint64_t handle) {
    (void)handle;
    uint8_t fault = 9;
    uint32_t status = zug_hive_load(hive, saved, saved_size, &fault);
    IS(fault, 0);
    return status;
}

static uint32_t open_root_call(zug_hive *hive, uint64_t handle) {
    uint64_t opened = 7;
    (void)handle;
    return zug_open_root(hive, 0, MOMENT, 1, &opened);
}

static uint32_t notify_call(zug_hive *hive, uint64_t handle) {
    uint64_t watch = 7;
    return zug_notify(hive, 0, MOMENT, handle, 1, true, &watch);
}

static uint32_t open_key_call(zug_hive *hive, uint64_t handle) {
    uint64_t opened;
    return zug_open_key(hive, 0, MOMENT, handle, TEXT("Soft, of many letters"), 1, &opened);
}

static uint32_t create_call(zug_hive *hive, uint64_t handle) {
    uint64_t opened;
    uint32_t disposition;
    return zug_create_key(hive, 0, MOMENT, handle, TEXT("made of many letters\\below"), 1, TEXT("own, of many bytes"),
                          &opened, &disposition);
}

static uint32_t set_call(zug_hive *hive, uint64_t handle) {
    return zug_set_value(hive, 0, MOMENT, handle, TEXT("value of many letters"), 3, TEXT("more bytes than sixteen"));
}

static uint32_t security_call(zug_hive *hive, uint64_t handle) {
    return zug_set_security(hive, 0, MOMENT, handle, TEXT("third, of many bytes"));
}

static uint32_t query_call(zug_hive *hive, uint64_t handle) {
    uint8_t room[32];
    uint32_t kind, size;
    return zug_query_value(hive, 0, handle, TEXT("value of many letters"), room, 32, &kind, &size);
}

static uint32_t enum_value_call(zug_hive *hive, uint64_t handle) {
    uint8_t room[32], name[32];
    uint32_t name_size, kind, size;
    return zug_enum_value(hive, 0, handle, 0, name, 32, &name_size, room, 32, &kind, &size);
}

static uint32_t get_security_call(zug_hive *hive, uint64_t handle) {
    uint8_t room[24];
    uint32_t size;
    return zug_get_security(hive, 0, handle, room, 24, &size);
}

static uint32_t cause_call(zug_hive *hive, uint64_t handle) {
    return zug_cause(hive, 0, MOMENT, ZUG_SET, handle, TEXT("value of many letters"), 3, TEXT("more bytes than sixteen"), false);
}

static uint32_t delete_value_call(zug_hive *hive, uint64_t handle) {
    return zug_delete_value(hive, 0, MOMENT, handle, TEXT("value of many letters"));
}

static uint32_t delete_key_call(zug_hive *hive, uint64_t handle) {
    return zug_delete_key(hive, 0, MOMENT, handle, TEXT("made of many letters\\below"));
}

static uint32_t delete_tree_call(zug_hive *hive, uint64_t handle) {
    return zug_delete_tree(hive, 0, MOMENT, handle, TEXT("made of many letters"));
}

/* Those that take no memory, and so never answer 8, with none granted. */
static void without_memory(void) {
    zug_hive hive = {0};
    uint64_t root = 7, watch = 7, size = 7, entries = 7, kept = 7, cut = 7, ended = 7, entry = 7, time = 7;
    uint32_t count = 7, reason = 7, kind = 7, name_size = 7, data_size = 7;
    uint8_t room[96];
    zug_info info;
    zug_subkey row;
    zug_value value;
    make(&hive, &root);
    uint64_t soft = key(&hive, root, "Soft, of many letters");
    IS(set_call(&hive, soft), 0);
    IS(zug_close(&hive, 0, MOMENT, soft), 0);
    IS(zug_notify(&hive, 0, MOMENT, root, ZUG_FILTER_LAST_SET, false, &watch), 0);
    IS(set_call(&hive, root), 0);
    IS(zug_set_value(&hive, 0, MOMENT, root, TEXT("of 16 characters"), 3, TEXT("more bytes than sixteen")), 0);
    granted = 0;
    IS(zug_query_info(&hive, 0, root, &info), 0);
    IS(info.subkeys == 1 && info.values == 2, true);
    IS(zug_query_value(&hive, 0, root, TEXT("of 16 characters"), room, sizeof room, &kind, &data_size), 0);
    IS(kind == 3 && data_size == 23 && memcmp(room, "more bytes than sixteen", 23) == 0, true);
    IS(zug_enum_key(&hive, 0, root, 0, room, sizeof room, &name_size, &time), 0);
    IS(name_size == 21 && memcmp(room, "Soft, of many letters", 21) == 0, true);
    IS(zug_key_at(&hive, TEXT("Soft, of many letters"), &row, room, sizeof room), 0);
    IS(row.name_size, 21);
    IS(zug_subkeys_at(&hive, TEXT(""), 0, &row, 1, room, sizeof room, &count), 0);
    IS(count == 1 && row.name_size == 21, true);
    IS(zug_values_at(&hive, TEXT(""), 0, &value, 1, room, sizeof room, &count), 0);
    IS(count == 1 && value.name_size == 21 && value.size == 23, true);
    IS(zug_subkeys_with_values_at(&hive, TEXT(""), 0, &row, 1, &value, 1, room, sizeof room, &count), 0);
    IS(count == 1 && row.values == 1 && value.size == 23, true);
    IS(zug_entries(&hive, &entries, &kept), 0);
    IS(kept, entries);
    IS(zug_image_size(&hive, &size, &entries), 0);
    IS(zug_image_part(&hive, MOMENT, 5, entries, size - sizeof room, room, sizeof room), 0);
    IS(zug_take_notice(&hive, 0, &ended, &entry, &reason), 0);
    IS(ended == watch && reason == ZUG_MATCHED, true);
    IS(zug_close(&hive, 0, MOMENT, root), 0);
    IS(zug_hive_cut(&hive, &cut), 0);
    IS(cut, entries + 1);
    zug_hive_close(&hive);
    granted = -1;
}

static void refusals(void) {
    zug_hive hive = {0};
    uint64_t root = 7;
    until_granted(new_call, &hive, 0);
    zug_hive_close(&hive);
    make(&hive, &root);
    saved = image_by(&hive, 4096, &saved_size);
    zug_hive_close(&hive);
    until_granted(load_call, &hive, 0);
    free(saved);
    IS(zug_open_root(&hive, 0, MOMENT, ZUG_ALL_ACCESS, &root), 0);
    key(&hive, root, "Soft, of many letters");
    uint32_t (*const calls[])(zug_hive *, uint64_t) = {open_key_call, create_call, set_call, security_call, query_call,
        enum_value_call, get_security_call, cause_call, delete_value_call, delete_key_call, delete_tree_call};
    for (unsigned at = 0; at < sizeof calls / sizeof *calls; at++)
        until_granted(calls[at], &hive, root);
    until_refused(open_root_call, &hive, root);
    until_refused(notify_call, &hive, root);
    granted = 0;
    IS(zug_close(&hive, 0, MOMENT, root), 0);
    granted = -1;
    zug_hive_close(&hive);
    without_memory();
}

/* ---- Many hives ---- */

static void many(unsigned count) {
    for (unsigned made = 0; made < count; made++) {
        zug_hive hive = {0};
        uint64_t root = 7, size = 7;
        uint8_t fault = 9;
        make(&hive, &root);
        IS(zug_set_value(&hive, 0, MOMENT, key(&hive, root, "Soft\\Zug"), TEXT("Version"), 4, descriptor, 4), 0);
        uint8_t *image = image_by(&hive, 4096, &size);
        zug_hive_close(&hive);
        IS(zug_hive_load(&hive, image, size, &fault), 0);
        zug_hive_close(&hive);
        image[0] = 'x';
        IS(zug_hive_load(&hive, image, size, &fault), ZUG_NOT_REGISTRY_FILE);
        free(image);
    }
}

static void calls_of_a_hive(void) {
    zug_hive hive = {0};
    uint64_t root = 7;
    make(&hive, &root);
    opens(&hive, root);
    uint64_t handle = key(&hive, root, "Soft\\Zug");
    values(&hive, handle);
    lists_of_keys(&hive, root);
    lists_of_values(&hive, handle);
    keys_by_path(&hive);
    values_by_path(&hive, handle);
    subkeys_with_values(&hive, root, handle);
    numbers(&hive, handle);
    security(&hive, handle);
    deletions(&hive, root);
    notices(&hive, root);
    causes(&hive, root);
    images(&hive);
    loads(&hive);
    zug_hive_close(&hive);
}

int main(int count, char **words) {
    no_hive();
    lives();
    nothing_given();
    calls_of_a_hive();
    counts();
    full_bins();
    journals();
    refusals();
    many(count > 1 ? (unsigned)atoi(words[1]) : 10000);
    printf("%u answers, each as it is due\n", compared);
    return 0;
}
