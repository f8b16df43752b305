/* What bench.c times, by hivex: cc -O2 bench_hivex.c -lhivex
 *
 *     bench_hivex calls IMAGE     nanoseconds of a call, of the processor; nothing is written to the file
 *     bench_hivex walk IMAGE      how many keys and values the hive has; each one's name, type and data is asked for
 */
#include <hivex.h>

#include <inttypes.h>
#include <stdbool.h>
#include <stdint.h>
#include <stdio.h>
#include <stdlib.h>
#include <string.h>
#include <time.h>

#define PARENTS 204u
#define KEYS 98u

static hive_h *hive;

/* The names of the keys below each parent, and the keys. */
static char names[KEYS][8];
static hive_node_h nodes[KEYS];

/* The name of the value that is set and asked for. */
static const char *value = "Value";

static void must(bool is_well) {
    if (!is_well) {
        perror("hivex");
        exit(1);
    }
}

static uint64_t nanoseconds(void) {
    struct timespec now;
    clock_gettime(CLOCK_PROCESS_CPUTIME_ID, &now);
    return (uint64_t)now.tv_sec * 1000000000u + (uint64_t)now.tv_nsec;
}

/* ---- Calls ---- */

static void make(hive_node_h parent) {
    for (unsigned key = 0; key < KEYS; key++)
        must(hivex_node_add_child(hive, parent, names[key]) != 0);
}

static void open_and_close(hive_node_h parent) {
    for (unsigned key = 0; key < KEYS; key++)
        must(hivex_node_get_child(hive, parent, names[key]) != 0);
}

static void set(hive_node_h parent) {
    hive_set_value given = {(char *)value, hive_t_dword, 4, (char *)&parent};
    for (unsigned key = 0; key < KEYS; key++)
        must(hivex_node_set_value(hive, nodes[key], &given, 0) == 0);
}

static void query(hive_node_h parent) {
    hive_type type;
    size_t size;
    (void)parent;
    for (unsigned key = 0; key < KEYS; key++) {
        char *data = hivex_value_value(hive, hivex_node_get_value(hive, nodes[key], value), &type, &size);
        must(data != NULL);
        free(data);
    }
}

static void enumerate(hive_node_h parent) {
    hive_node_h *children = hivex_node_children(hive, parent);
    must(children != NULL);
    for (unsigned key = 0; key < KEYS; key++) {
        char *name = hivex_node_name(hive, children[key]);
        must(name != NULL);
        free(name);
    }
    free(children);
}

/* Does something with the keys below each parent, which are found before where it needs them. */
static void measure(const char *what, void (*does)(hive_node_h), const hive_node_h *parents, bool needs_nodes) {
    uint64_t took = 0;
    for (unsigned at = 0; at < PARENTS; at++) {
        for (unsigned key = 0; needs_nodes && key < KEYS; key++)
            must((nodes[key] = hivex_node_get_child(hive, parents[at], names[key])) != 0);
        uint64_t begun = nanoseconds();
        does(parents[at]);
        took += nanoseconds() - begun;
    }
    printf("%s: %" PRIu64 "\n", what, took / (PARENTS * KEYS));
}

static void calls(void) {
    hive_node_h parents[PARENTS];
    char name[16];
    for (unsigned key = 0; key < KEYS; key++)
        snprintf(names[key], sizeof names[key], "Key%u", key);
    for (unsigned at = 0; at < PARENTS; at++) {
        snprintf(name, sizeof name, "Parent%u", at);
        must((parents[at] = hivex_node_add_child(hive, hivex_root(hive), name)) != 0);
    }
    measure("make a key", make, parents, false);
    measure("open and close a key", open_and_close, parents, false);
    measure("set a new value", set, parents, true);
    measure("set a value", set, parents, true);
    measure("query a value", query, parents, true);
    value = "Other";
    measure("set a second value", set, parents, true);
    value = "Third";
    measure("set a third value", set, parents, true);
    value = "Other";
    measure("set one of three values", set, parents, true);
    measure("query one of three values", query, parents, true);
    measure("enumerate a key", enumerate, parents, false);
    measure("list a key by its path", enumerate, parents, false);
}

/* ---- A walk ---- */

static uint64_t keys, values;

static void walk(hive_node_h node) {
    hive_value_h *its_values = hivex_node_values(hive, node);
    hive_node_h *children = hivex_node_children(hive, node);
    hive_type type;
    size_t size;
    must(its_values && children);
    keys += 1;
    free(hivex_node_name(hive, node));
    for (size_t at = 0; its_values[at]; at++, values++) {
        free(hivex_value_key(hive, its_values[at]));
        free(hivex_value_value(hive, its_values[at], &type, &size));
    }
    for (size_t at = 0; children[at]; at++)
        walk(children[at]);
    free(its_values);
    free(children);
}

int main(int count, char **words) {
    if (count != 3)
        return 2;
    bool is_walk = strcmp(words[1], "walk") == 0;
    hive = hivex_open(words[2], is_walk ? 0 : HIVEX_OPEN_WRITE);
    must(hive != NULL);
    if (!is_walk) {
        calls();
    } else {
        walk(hivex_root(hive));
        printf("%" PRIu64 " keys %" PRIu64 " values\n", keys, values);
    }
    return hivex_close(hive) != 0;
}
