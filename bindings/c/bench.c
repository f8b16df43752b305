/* Times calls of the library, or loads an image and goes through it; bench_hivex.c does the same by hivex. tools/bench runs both.
 *
 *     bench calls IMAGE     nanoseconds of a call on the hive of an image with a root alone, of the processor
 *     bench walk IMAGE      how many keys and values the hive has; each one's name, type and data is asked for
 */
#include "zugmeled.h"

#include <fcntl.h>
#include <inttypes.h>
#include <stdio.h>
#include <stdlib.h>
#include <string.h>
#include <sys/mman.h>
#include <sys/stat.h>
#include <time.h>
#include <unistd.h>

#define PARENTS 204u
#define KEYS 98u
#define MOMENT 133000000000000000u

static zug_hive hive;

/* The names of the keys below each parent, and handles to them. */
static char names[KEYS][8];
static size_t lengths[KEYS];
static uint64_t handles[KEYS];

/* The names of the parents, and which is at work. */
static char parent_names[PARENTS][16];
static size_t parent_lengths[PARENTS];
static unsigned present;

/* The name of the value that is set and asked for, of five bytes. */
static const char *value = "Value";

static void must(uint32_t status) {
    if (status) {
        fprintf(stderr, "a call is answered %" PRIu32 "\n", status);
        exit(1);
    }
}

static uint64_t nanoseconds(void) {
    struct timespec now;
    clock_gettime(CLOCK_PROCESS_CPUTIME_ID, &now);
    return (uint64_t)now.tv_sec * 1000000000u + (uint64_t)now.tv_nsec;
}

/* The image is mapped, as hivex maps it. */
static void load(const char *path) {
    int in = open(path, O_RDONLY);
    struct stat file;
    uint8_t fault;
    if (in < 0 || fstat(in, &file))
        exit(2);
    void *bytes = mmap(NULL, (size_t)file.st_size, PROT_READ, MAP_PRIVATE, in, 0);
    if (bytes == MAP_FAILED)
        exit(2);
    must(zug_hive_load(&hive, bytes, (size_t)file.st_size, &fault));
    munmap(bytes, (size_t)file.st_size);
    close(in);
}

/* ---- Calls ---- */

static uint64_t made(uint64_t above, const char *name, size_t length) {
    uint64_t key;
    uint32_t disposition;
    must(zug_create_key(&hive, 0, MOMENT, above, (const uint8_t *)name, length, ZUG_ALL_ACCESS, NULL, 0, &key, &disposition));
    return key;
}

static uint64_t opened(uint64_t above, unsigned key) {
    uint64_t handle;
    must(zug_open_key(&hive, 0, MOMENT, above, (const uint8_t *)names[key], lengths[key], ZUG_ALL_ACCESS, &handle));
    return handle;
}

static void make(uint64_t parent) {
    for (unsigned key = 0; key < KEYS; key++)
        must(zug_close(&hive, 0, MOMENT, made(parent, names[key], lengths[key])));
}

static void open_and_close(uint64_t parent) {
    for (unsigned key = 0; key < KEYS; key++)
        must(zug_close(&hive, 0, MOMENT, opened(parent, key)));
}

static void set(uint64_t parent) {
    for (unsigned key = 0; key < KEYS; key++)
        must(zug_set_value(&hive, 0, MOMENT, handles[key], (const uint8_t *)value, 5, 4, (const uint8_t *)&parent, 4));
}

static void query(uint64_t parent) {
    uint8_t room[4];
    uint32_t kind, size;
    (void)parent;
    for (unsigned key = 0; key < KEYS; key++)
        must(zug_query_value(&hive, 0, handles[key], (const uint8_t *)value, 5, room, sizeof room, &kind, &size));
}

static void enumerate(uint64_t parent) {
    uint8_t room[256];
    uint32_t size;
    uint64_t time;
    for (unsigned key = 0; key < KEYS; key++)
        must(zug_enum_key(&hive, 0, parent, key, room, sizeof room, &size, &time));
}

static void list(uint64_t parent) {
    zug_subkey rows[KEYS];
    uint8_t room[KEYS * sizeof names[0]];
    uint32_t count;
    (void)parent;
    must(zug_subkeys_at(&hive, (const uint8_t *)parent_names[present], parent_lengths[present], 0, rows, KEYS, room, sizeof room, &count));
    must(count != KEYS);
}

/* Does something with the keys below each parent, whose handles are open meanwhile where it needs them. */
static void measure(const char *what, void (*does)(uint64_t), const uint64_t *parents, bool needs_handles) {
    uint64_t took = 0;
    for (unsigned at = 0; at < PARENTS; at++) {
        for (unsigned key = 0; needs_handles && key < KEYS; key++)
            handles[key] = opened(parents[at], key);
        present = at;
        uint64_t begun = nanoseconds();
        does(parents[at]);
        took += nanoseconds() - begun;
        for (unsigned key = 0; needs_handles && key < KEYS; key++)
            must(zug_close(&hive, 0, MOMENT, handles[key]));
    }
    printf("%s: %" PRIu64 "\n", what, took / (PARENTS * KEYS));
}

static void calls(void) {
    uint64_t root, parents[PARENTS];
    must(zug_open_root(&hive, 0, MOMENT, ZUG_ALL_ACCESS, &root));
    for (unsigned key = 0; key < KEYS; key++)
        lengths[key] = (size_t)snprintf(names[key], sizeof names[key], "Key%u", key);
    for (unsigned at = 0; at < PARENTS; at++) {
        parent_lengths[at] = (size_t)snprintf(parent_names[at], sizeof parent_names[at], "Parent%u", at);
        parents[at] = made(root, parent_names[at], parent_lengths[at]);
    }
    measure("make a key", make, parents, false);
    measure("open and close a key", open_and_close, parents, false);
    measure("set a new value", set, parents, true);
    measure("set a value", set, parents, true);
    measure("query a value", query, parents, true);
    value = "Other";
    measure("set a second value", set, parents, true);
    value = "Third";
    measure("set a third value", set, parents, true);
    value = "Other";
    measure("set one of three values", set, parents, true);
    measure("query one of three values", query, parents, true);
    measure("enumerate a key", enumerate, parents, false);
    measure("list a key by its path", list, parents, false);
}

/* ---- A walk, by paths ---- */

#define ROWS 256u
#define ROWS_OF_VALUES 16384u

static uint64_t keys, values;
static zug_value value_rows[ROWS_OF_VALUES];
static uint8_t data_room[1048576 + 16383 + ROWS * ZUG_KEY_NAME_LIMIT];

/* The names of the subkeys that a walk has still to go to, at each depth. */
static uint8_t names_at[ZUG_PATH_LIMIT + 1][ROWS * ZUG_KEY_NAME_LIMIT];

/* The values of a key by themselves. */
static void go_through_values(const uint8_t *path, size_t length, uint32_t there) {
    uint32_t count;
    for (uint32_t at = 0; at < there; at += count) {
        must(zug_values_at(&hive, path, length, at, value_rows, ROWS_OF_VALUES, data_room, sizeof data_room, &count));
        values += count;
    }
}

/* A subkey that has no place with all its values. Its name goes behind the path. */
static void go_through_one(uint8_t *path, size_t length, uint8_t *below, uint32_t index, zug_subkey *row, uint8_t *name) {
    uint32_t count;
    must(zug_subkeys_at(&hive, path, length, index, row, 1, name, ZUG_KEY_NAME_LIMIT, &count));
    memcpy(below, name, row->name_size);
    go_through_values(path, (size_t)(below - path) + row->name_size, row->values);
}

/* Keeps the names of subkeys that were told with their values, and counts these. */
static void keep_names(const zug_subkey *rows, uint32_t count, uint8_t *names) {
    const uint8_t *told = data_room;
    const zug_value *value = value_rows;
    for (uint32_t key = 0; key < count; key++) {
        memcpy(names, told, rows[key].name_size);
        names += rows[key].name_size;
        told += rows[key].name_size;
        for (uint32_t left = rows[key].values; left; left--, value++, values++)
            told += value->name_size + value->size;
    }
}

/* All below a key. Behind its path there is place for the names of its subkeys. */
static void walk(uint8_t *path, size_t length, uint32_t subkeys, unsigned depth) {
    uint8_t *below = path + length, *names = names_at[depth];
    zug_subkey rows[ROWS];
    uint32_t count;
    keys += 1;
    if (length && subkeys)
        *below++ = '\\';
    for (uint32_t at = 0; at < subkeys; at += count) {
        const uint8_t *name = names;
        uint32_t status = zug_subkeys_with_values_at(&hive, path, length, at, rows, ROWS, value_rows, ROWS_OF_VALUES, data_room, sizeof data_room, &count);
        if (status == ZUG_MORE_DATA) {
            go_through_one(path, length, below, at, rows, names);
            count = 1;
        } else {
            must(status);
            keep_names(rows, count, names);
        }
        for (uint32_t key = 0; key < count; name += rows[key++].name_size) {
            memcpy(below, name, rows[key].name_size);
            walk(path, (size_t)(below - path) + rows[key].name_size, rows[key].subkeys, depth + 1);
        }
    }
}

static void walk_all(void) {
    static uint8_t path[ZUG_PATH_LIMIT * (ZUG_KEY_NAME_LIMIT + 1)];
    zug_subkey root;
    uint8_t name[ZUG_KEY_NAME_LIMIT];
    must(zug_key_at(&hive, path, 0, &root, name, sizeof name));
    go_through_values(path, 0, root.values);
    walk(path, 0, root.subkeys, 0);
    printf("%" PRIu64 " keys %" PRIu64 " values\n", keys, values);
}

int main(int count, char **words) {
    if (count != 3)
        return 2;
    load(words[2]);
    if (strcmp(words[1], "calls") == 0)
        calls();
    else
        walk_all();
    zug_hive_close(&hive);
    return 0;
}
