/* Loads hostile images: each is one of those given, with 1 to 8 changes drawn at random.
 *
 *     cc -O2 bindings/c/hostile.c -Wl,--wrap=malloc -Wl,--wrap=realloc \
 *         $(PKG_CONFIG_PATH=dist pkg-config --cflags --libs zugmeled) -o dist/hostile
 *     dist/hostile COUNT SEED IMAGE..
 *
 * A change is of a byte, a bit or a word, or moves a piece, or cuts or lengthens the image. Three quarters of the images have the checksum
 * mended, so that a change of the base block gets past it. Of one in 16 memory is refused from some request on. Each load answers 0, 8, or
 * 1017 with a fault from 2 to 13; 8 only where memory was refused. Where it doesn't succeed the zug_hive holds no hive. Where it does, the
 * hive's image is taken in parts and loaded: that hive has the same image, but for the links of free cells (docs/FORMAT.md). Then each key
 * and value is gone through, a value is set, and the image loads again.
 *
 * Each image has a seed of its own, from SEED (0: one of the clock) on. The program ends with status 1 at the first that is answered
 * otherwise, and tells its seed: `hostile 1 THAT IMAGE..` tries it alone.
 */
#include "zugmeled.h"

#include <inttypes.h>
#include <stdio.h>
#include <stdlib.h>
#include <string.h>
#include <time.h>

#define TEXT(text) (const uint8_t *)(text), sizeof(text) - 1
#define IS(call, expected) is((uint64_t)(call), (uint64_t)(expected), #call, __LINE__)

#define BLOCK 4096u
#define MOMENT 133000000000000000u
#define SEQUENCE 7u
/* So many bytes an image is lengthened by at most. */
#define MORE 8192u
#define FAULTS 14u

/* An image: a front of the memory that it lies in. */
typedef struct {
    uint8_t *at;
    size_t length;
} image;

/* The seed of the image that is tried, for what is told of it. */
static uint64_t seed;

static void is(uint64_t found, uint64_t expected, const char *call, int line) {
    if (found == expected)
        return;
    printf("seed %" PRIu64 ", line %d: %s is %" PRIu64 ", not %" PRIu64 "\n", seed, line, call, found, expected);
    exit(1);
}

/* ---- Memory that is refused ---- */

/* How many requests are granted before all others are refused; of a negative number all are. */
static long granted = -1;
static bool was_refused;

void *__real_malloc(size_t size);
void *__real_realloc(void *block, size_t size);

static bool is_refused(void) {
    if (granted > 0) {
        granted -= 1;
        return false;
    }
    was_refused |= granted == 0;
    return granted == 0;
}

void *__wrap_malloc(size_t size) { return is_refused() ? NULL : __real_malloc(size); }

void *__wrap_realloc(void *block, size_t size) { return is_refused() ? NULL : __real_realloc(block, size); }

/* ---- Chance ---- */

static uint64_t state;

/* splitmix64. */
static uint64_t draw(void) {
    uint64_t mixed = state += 0x9E3779B97F4A7C15u;
    mixed = (mixed ^ mixed >> 30) * 0xBF58476D1CE4E5B9u;
    mixed = (mixed ^ mixed >> 27) * 0x94D049BB133111EBu;
    return mixed ^ mixed >> 31;
}

static size_t below(size_t bound) { return bound ? (size_t)(draw() % bound) : 0; }

/* ---- Changes of an image ---- */

static uint32_t word_at(const image *it, size_t at) {
    uint32_t word;
    memcpy(&word, it->at + at, 4);
    return word;
}

static void put_word(image *it, size_t at, uint32_t word) {
    if (at + 4 <= it->length)
        memcpy(it->at + at, &word, 4);
}

/* A place in an image: one of four in the fields of its base block, the others behind it, where most are of cells that hold something. */
static size_t place(const image *it) {
    if (it->length <= BLOCK || below(4) == 0)
        return below(it->length < 512 ? it->length : 512);
    size_t at = 0;
    for (unsigned drawn = 0; drawn < 8; drawn++) {
        at = BLOCK + below(it->length - BLOCK);
        if (it->at[at])
            break;
    }
    return at;
}

/* A word that a test may go by: the least and greatest numbers, sizes, offsets of cells, and another word of the image. */
static uint32_t telling_word(const image *it) {
    static const uint32_t words[] = {0, 1, 0xFFFFFFFFu, 0x7FFFFFFFu, 0x80000000u, 0x80000004u, 32, 4096, 0xFFFFFFF8u, 0xFFFF, 512, 60000};
    size_t other = place(it) & ~(size_t)3;
    if (below(3) == 0)
        return words[below(sizeof words / sizeof *words)];
    return below(2) || it->length - other < 4 ? (uint32_t)below(it->length) & ~7u : word_at(it, other);
}

/* Copies a piece of at most 64 bytes to another place. */
static void repeat(image *it) {
    size_t from = place(it), to = place(it), length = 1 + below(64);
    size_t last = from > to ? from : to;
    memmove(it->at + to, it->at + from, it->length - last < length ? it->length - last : length);
}

static void lengthen(image *it, size_t room) {
    size_t length = 1 + below(MORE), from = place(it);
    if (length > room - it->length)
        length = room - it->length;
    for (size_t at = 0; at < length; at++)
        it->at[it->length + at] = it->at[from + at];
    it->length += length;
}

static void change(image *it, size_t room) {
    size_t at = place(it);
    if (it->length == 0)
        return;
    switch (below(16)) {
    case 0:
        it->length = at;
        return;
    case 1:
        lengthen(it, room);
        return;
    case 2:
    case 3:
        repeat(it);
        return;
    case 4:
    case 5:
    case 6:
        put_word(it, at & ~(size_t)3, telling_word(it));
        return;
    case 7:
        at &= ~(size_t)3;
        put_word(it, at, it->length - at < 4 ? 0 : word_at(it, at) + (uint32_t)below(17) - 8);
        return;
    case 8:
    case 9:
        it->at[at] ^= (uint8_t)(1u << below(8));
        return;
    default:
        it->at[at] = (uint8_t)draw();
    }
}

static void mend_checksum(image *it) {
    uint32_t sum = 0;
    if (it->length < 512)
        return;
    for (size_t at = 0; at < 508; at += 4)
        sum ^= word_at(it, at);
    put_word(it, 508, sum == 0 ? 1 : sum == 0xFFFFFFFFu ? 0xFFFFFFFEu : sum);
}

/* A changed copy of an image, in memory of just its length, so that a byte read behind it is found out. */
static image changed(const image *given) {
    size_t room = given->length + MORE;
    image it = {malloc(room), given->length};
    memcpy(it.at, given->at, given->length);
    for (size_t left = 1 + below(8); left; left--)
        change(&it, room);
    if (below(4))
        mend_checksum(&it);
    image made = {malloc(it.length + !it.length), it.length};
    memcpy(made.at, it.at, it.length);
    free(it.at);
    return made;
}

/* ---- What a hive has ---- */

static image image_of(zug_hive *hive) {
    uint64_t size = 0, entries = 0;
    IS(zug_image_size(hive, &size, &entries), 0);
    IS(size % BLOCK, 0);
    image whole = {malloc(size), size};
    for (size_t at = 0, length; at < size; at += length) {
        length = 2 * below(4500) + 1;
        if (length > size - at)
            length = size - at;
        IS(zug_image_part(hive, MOMENT, SEQUENCE, entries, at, whole.at + at, length), 0);
    }
    return whole;
}

/* The links of free cells, which are the first four bytes of what these hold, are written over: a load lists the cells anew. */
static void drop_links(image *it) {
    for (size_t bin = BLOCK, size; bin < it->length; bin += size) {
        size = word_at(it, bin + 8);
        for (size_t cell = bin + 32, length; cell < bin + size; cell += length) {
            uint32_t word = word_at(it, cell);
            length = word & 0x80000000u ? 0u - word : word;
            if (length == word)
                put_word(it, cell + 4, 0xFFFFFFFFu);
        }
    }
}

static void are_same(const image *one, const image *other) {
    IS(one->length, other->length);
    IS(memcmp(one->at, other->at, one->length), 0);
}

/* The image of the hive that an image loads to. */
static image image_again(const image *it) {
    zug_hive hive = {0};
    uint8_t fault = 99;
    IS(zug_hive_load(&hive, it->at, it->length, &fault), 0);
    IS(fault, 0);
    image whole = image_of(&hive);
    zug_hive_close(&hive);
    return whole;
}

/* The image of a hive loads, to a hive with that image but for the links of free cells, and with these too from the second on. */
static void loads_again(zug_hive *hive) {
    image first = image_of(hive), second = image_again(&first), third = image_again(&second);
    are_same(&second, &third);
    drop_links(&first);
    drop_links(&second);
    are_same(&first, &second);
    free(first.at);
    free(second.at);
    free(third.at);
}

/* The value at an index of a key, asked for by its index and by its name. */
static void look_at_value(zug_hive *hive, uint64_t handle, const zug_info *info, uint32_t index) {
    uint8_t *name = malloc(info->longest_value + 1u), *data = malloc(info->largest + 1u), *again = malloc(info->largest + 1u);
    uint32_t name_size = 0, kind = 0, size = 0, other_kind = 0, other_size = 0;
    IS(zug_enum_value(hive, 0, handle, index, name, info->longest_value, &name_size, data, info->largest, &kind, &size), 0);
    IS(name_size <= info->longest_value && size <= info->largest, true);
    IS(zug_query_value(hive, 0, handle, name, name_size, again, info->largest, &other_kind, &other_size), 0);
    /* (a room of no bytes, where all data is empty, asks for the size alone) */
    IS(kind == other_kind && size == other_size && memcmp(data, again, size) == 0, true);
    free(name);
    free(data);
    free(again);
}

static void look_at_security(zug_hive *hive, uint64_t handle, uint32_t length) {
    uint8_t *own = malloc(length + 1u);
    uint32_t size = 0;
    IS(zug_get_security(hive, 0, handle, own, length, &size), 0);
    IS(size, length);
    free(own);
}

/* Goes through a key and all below it, and answers how many keys that are. */
static uint64_t walk(zug_hive *hive, uint64_t handle) {
    zug_info info;
    uint8_t name[255], data[1];
    uint32_t size = 0, kind = 0, data_size = 0;
    uint64_t time = 0, below_it = 0, keys = 1;
    IS(zug_query_info(hive, 0, handle, &info), 0);
    look_at_security(hive, handle, info.security);
    for (uint32_t index = 0; index < info.values; index++)
        look_at_value(hive, handle, &info, index);
    IS(zug_enum_value(hive, 0, handle, info.values, name, 255, &size, data, 1, &kind, &data_size), ZUG_NO_MORE_ITEMS);
    for (uint32_t index = 0; index < info.subkeys; index++) {
        IS(zug_enum_key(hive, 0, handle, index, name, info.longest_key, &size, &time), 0);
        IS(zug_open_key(hive, 0, MOMENT, handle, name, size, ZUG_ALL_ACCESS, &below_it), 0);
        keys += walk(hive, below_it);
        IS(zug_close(hive, 0, MOMENT, below_it), 0);
    }
    IS(zug_enum_key(hive, 0, handle, info.subkeys, name, 255, &size, &time), ZUG_NO_MORE_ITEMS);
    return keys;
}

/* ---- A load ---- */

/* What came of all loads. */
static struct {
    uint64_t loaded, keys, without_memory, refused[FAULTS];
} told;

static void use(zug_hive *hive) {
    uint64_t root = 0;
    uint32_t kind = 0, size = 0;
    uint8_t room[8];
    loads_again(hive);
    IS(zug_open_root(hive, 0, MOMENT, ZUG_ALL_ACCESS, &root), 0);
    told.keys += walk(hive, root);
    IS(zug_set_value(hive, 0, MOMENT, root, TEXT("hostile"), 3, TEXT("bytes")), 0);
    IS(zug_query_value(hive, 0, root, TEXT("Hostile"), room, sizeof room, &kind, &size), 0);
    IS(kind == 3 && size == 5 && memcmp(room, "bytes", 5) == 0, true);
    IS(zug_close(hive, 0, MOMENT, root), 0);
    loads_again(hive);
}

/* Nothing is there, so each call is refused. */
static void is_empty(zug_hive *hive) {
    uint64_t entries = 7, kept = 7, root = 7;
    IS(hive->holds, 0);
    IS(zug_entries(hive, &entries, &kept), ZUG_INVALID_HANDLE);
    IS(zug_open_root(hive, 0, MOMENT, ZUG_ALL_ACCESS, &root), ZUG_INVALID_HANDLE);
    IS(entries == 0 && kept == 0 && root == 0, true);
}

static void load(const image *given) {
    zug_hive hive = {0};
    uint8_t fault = 99;
    image it = changed(given);
    was_refused = false;
    granted = below(16) ? -1 : (long)below(100);
    uint32_t status = zug_hive_load(&hive, it.at, it.length, &fault);
    granted = -1;
    free(it.at);
    if (status == ZUG_NOT_REGISTRY_FILE) {
        IS(fault >= 2 && fault < FAULTS, true);
        told.refused[fault] += 1;
    } else {
        IS(status == 0 || (status == ZUG_NOT_ENOUGH_MEMORY && was_refused), true);
        IS(fault, 0);
    }
    if (status == 0) {
        use(&hive);
        told.loaded += 1;
        zug_hive_close(&hive);
    }
    told.without_memory += status == ZUG_NOT_ENOUGH_MEMORY;
    is_empty(&hive);
    zug_hive_close(&hive);
}

/* ---- All of them ---- */

static image read_whole(const char *path) {
    FILE *in = fopen(path, "rb");
    image whole = {NULL, 0};
    long length = -1;
    if (in && fseek(in, 0, SEEK_END) == 0 && (length = ftell(in)) > 0) {
        rewind(in);
        whole = (image){malloc((size_t)length), (size_t)length};
    }
    if (length <= 0 || fread(whole.at, 1, whole.length, in) != whole.length) {
        fprintf(stderr, "%s isn't read\n", path);
        exit(2);
    }
    fclose(in);
    return whole;
}

static void tell(uint64_t first, uint64_t count, int images) {
    printf("from seed %" PRIu64 ", %" PRIu64 " images of %d: %" PRIu64 " loaded with %" PRIu64 " keys, %" PRIu64 " without memory, ", first, count,
           images, told.loaded, told.keys, told.without_memory);
    printf("%" PRIu64 " refused; by fault", count - told.loaded - told.without_memory);
    for (unsigned fault = 2; fault < FAULTS; fault++)
        printf(" %u: %" PRIu64, fault, told.refused[fault]);
    putchar('\n');
}

int main(int count, char **words) {
    if (count < 4) {
        fprintf(stderr, "usage: hostile COUNT SEED IMAGE..\n");
        return 2;
    }
    uint64_t images = strtoull(words[1], NULL, 10), first = strtoull(words[2], NULL, 10);
    int given = count - 3;
    image *starts = calloc((size_t)given, sizeof *starts);
    if (first == 0)
        first = (uint64_t)time(NULL) * 1000000;
    for (int at = 0; at < given; at++)
        starts[at] = read_whole(words[at + 3]);
    for (seed = first; seed < first + images; seed++) {
        state = seed * 0xD1B54A32D192ED03u;
        load(&starts[below((size_t)given)]);
    }
    tell(first, images, given);
    for (int at = 0; at < given; at++)
        free(starts[at].at);
    free(starts);
    return 0;
}
