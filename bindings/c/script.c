/* Runs scripts of the tool through the library, each on a fresh hive, and writes the replies that `regtool run` writes:
 *
 *     cc -O2 bindings/c/script.c $(PKG_CONFIG_PATH=dist pkg-config --cflags --libs zugmeled) -o dist/script
 *     dist/script FILE..
 *
 * docs/RULES.md has the lines of a script and the replies. Without a file the script is standard input. Of several files each one's replies
 * stand behind a line `script FILE`, which no reply is. With `--image` before the files it writes what `regtool run --image 1` writes.
 * Lines of any length are taken; the tool has a limit there.
 */
#include "zugmeled.h"

#include <inttypes.h>
#include <stdio.h>
#include <stdlib.h>
#include <string.h>

/* What the fresh hive of a script has. */
#define ROOT (const uint8_t *)"ROOT", 4
static const uint8_t descriptor[20] = {1, 0, 4, 0x80};

/* No answer is longer: the most bytes of a value's data, of a name, and of a descriptor that none may have. */
#define LONGEST_DATA 1048576u
#define LONGEST_NAME 16383u
#define TOO_LONG 65536u
static const uint8_t long_bytes[TOO_LONG];

/* ---- The words of a line ---- */

/* Some bytes of a line. */
typedef struct {
    uint8_t *at;
    size_t length;
} text;

/* What is left of a line. It is bad once a word is missing or isn't of the form that was asked for. */
typedef struct {
    text rest;
    bool is_over;
    bool is_bad;
} words;

/* A room that a line gives for an answer, or `-`. */
typedef struct {
    bool is_given;
    uint32_t length;
} room;

/* The next word: all up to a space or to the end. Two spaces have an empty word between them. */
static text next(words *line) {
    text word = line->rest;
    if (line->is_over) {
        line->is_bad = true;
        return (text){line->rest.at, 0};
    }
    uint8_t *space = line->rest.length ? memchr(line->rest.at, ' ', line->rest.length) : NULL;
    if (!space) {
        line->is_over = true;
        return word;
    }
    word.length = (size_t)(space - word.at);
    line->rest = (text){space + 1, line->rest.length - word.length - 1};
    return word;
}

/* Whether every word was of its form, and none is left. */
static bool ends(const words *line) { return line->is_over && !line->is_bad; }

static bool is(text word, const char *other) { return word.length == strlen(other) && memcmp(word.at, other, word.length) == 0; }

static uint64_t number_of(words *line, text word, uint64_t limit) {
    uint64_t number = 0;
    line->is_bad |= word.length == 0;
    for (size_t at = 0; at < word.length && !line->is_bad; at++) {
        unsigned digit = word.at[at] - (unsigned)'0';
        line->is_bad = digit > 9 || number > (UINT64_MAX - digit) / 10;
        number = 10 * number + digit;
    }
    line->is_bad |= number > limit;
    return number;
}

static uint64_t number(words *line, uint64_t limit) { return number_of(line, next(line), limit); }

static uint32_t small(words *line) { return (uint32_t)number(line, UINT32_MAX); }

static room room_or_none(words *line) {
    text word = next(line);
    if (is(word, "-"))
        return (room){false, 0};
    return (room){true, (uint32_t)number_of(line, word, UINT32_MAX)};
}

static bool zero_or_one(words *line) {
    text word = next(line);
    line->is_bad |= !is(word, "0") && !is(word, "1");
    return is(word, "1");
}

static int digit_of(uint8_t byte) {
    if (byte >= '0' && byte <= '9')
        return byte - '0';
    if (byte >= 'a' && byte <= 'f')
        return byte - 'a' + 10;
    return byte >= 'A' && byte <= 'F' ? byte - 'A' + 10 : -1;
}

/* The byte that two hexadecimal digits tell, or -1 where they aren't such. */
static int byte_of(const uint8_t *digits) {
    int high = digit_of(digits[0]), low = digit_of(digits[1]);
    return high < 0 || low < 0 ? -1 : 16 * high + low;
}

/* What stands behind the mark of a word. */
static text marked(words *line, uint8_t mark) {
    text word = next(line);
    if (word.length == 0 || word.at[0] != mark) {
        line->is_bad = true;
        return (text){word.at, 0};
    }
    return (text){word.at + 1, word.length - 1};
}

/* The bytes of a name. They take the place of the word, which is no shorter. */
static text name(words *line) {
    text word = marked(line, '=');
    size_t length = 0;
    for (size_t at = 0; at < word.length; at++) {
        int byte = word.at[at] == '%' && word.length - at > 2 ? byte_of(word.at + at + 1) : -1;
        word.at[length++] = byte < 0 ? word.at[at] : (uint8_t)byte;
        at += byte < 0 ? 0 : 2;
    }
    return (text){word.at, length};
}

/* The bytes that digits tell, likewise. */
static text data(words *line) {
    text word = marked(line, 'x');
    line->is_bad |= word.length % 2 != 0;
    for (size_t at = 0; at + 1 < word.length; at += 2) {
        int byte = byte_of(word.at + at);
        line->is_bad |= byte < 0;
        word.at[at / 2] = (uint8_t)byte;
    }
    return (text){word.at, word.length / 2};
}

/* ---- Replies ---- */

/* A script that runs: its hive, and what its lines have set. */
typedef struct {
    zug_hive hive;
    uint64_t moment;
    uint8_t session;
    FILE *out;
} script;

static void bad(script *it) { fputs("bad\n", it->out); }

/* The reply that is a status alone. */
static void told(script *it, uint32_t status) { fprintf(it->out, "%" PRIu32 "\n", status); }

/* The reply to a change that tells a number where it is accepted. */
static void told_number(script *it, uint32_t status, const char *what, uint64_t number) {
    if (status)
        told(it, status);
    else
        fprintf(it->out, "0 %s %" PRIu64 "\n", what, number);
}

static void put_name(script *it, text name) {
    fputc('=', it->out);
    for (size_t at = 0; at < name.length; at++)
        if (name.at[at] < 0x21 || name.at[at] > 0x7E || name.at[at] == '%')
            fprintf(it->out, "%%%02X", name.at[at]);
        else
            fputc(name.at[at], it->out);
}

static void put_data(script *it, text bytes) {
    static const char digits[] = "0123456789abcdef";
    fputs(" x", it->out);
    for (size_t at = 0; at < bytes.length; at++) {
        fputc(digits[bytes.at[at] >> 4], it->out);
        fputc(digits[bytes.at[at] & 15], it->out);
    }
}

/* The memory for an answer: as long as its caller says, but no longer than any answer is. */
static text taken(uint32_t length, uint32_t longest) {
    text answer = {NULL, length < longest ? length : longest};
    answer.at = malloc(answer.length + !answer.length);
    if (!answer.at)
        exit(2);
    return answer;
}

/* ---- Changes ---- */

static void open_root(script *it, words *line) {
    uint32_t mask = small(line);
    uint64_t opened;
    if (!ends(line)) {
        bad(it);
        return;
    }
    uint32_t status = zug_open_root(&it->hive, it->session, it->moment, mask, &opened);
    told_number(it, status, "handle", opened);
}

static void open_key(script *it, words *line) {
    uint64_t handle = number(line, UINT64_MAX), opened;
    text path = name(line);
    uint32_t mask = small(line);
    if (!ends(line)) {
        bad(it);
        return;
    }
    uint32_t status = zug_open_key(&it->hive, it->session, it->moment, handle, path.at, path.length, mask, &opened);
    told_number(it, status, "handle", opened);
}

/* A script may give an empty descriptor, which is refused by its length. To C that is none: one that is too long is refused alike. */
static void create_key(script *it, words *line) {
    uint64_t handle = number(line, UINT64_MAX), opened;
    text path = name(line);
    uint32_t mask = small(line), disposition;
    bool is_given = !line->is_over;
    text own = is_given ? data(line) : (text){NULL, 0};
    if (!ends(line)) {
        bad(it);
        return;
    }
    bool is_empty = is_given && own.length == 0;
    uint32_t status = zug_create_key(&it->hive, it->session, it->moment, handle, path.at, path.length, mask,
                                     is_empty ? long_bytes : own.at, is_empty ? TOO_LONG : own.length, &opened, &disposition);
    if (status) {
        told(it, status);
        return;
    }
    fprintf(it->out, "0 handle %" PRIu64 " disposition %" PRIu32 "\n", opened, disposition);
}

static void set_value(script *it, words *line) {
    uint64_t handle = number(line, UINT64_MAX);
    text value = name(line);
    uint32_t kind = small(line);
    text bytes = data(line);
    if (!ends(line)) {
        bad(it);
        return;
    }
    told(it, zug_set_value(&it->hive, it->session, it->moment, handle, value.at, value.length, kind, bytes.at, bytes.length));
}

/* A change that takes a handle and a path or a name, and tells a status. */
typedef uint32_t change(zug_hive *, uint8_t, uint64_t, uint64_t, const uint8_t *, size_t);

static void named(script *it, words *line, change *call) {
    uint64_t handle = number(line, UINT64_MAX);
    text given = name(line);
    if (!ends(line)) {
        bad(it);
        return;
    }
    told(it, call(&it->hive, it->session, it->moment, handle, given.at, given.length));
}

static void delete_value(script *it, words *line) { named(it, line, zug_delete_value); }

static void delete_key(script *it, words *line) { named(it, line, zug_delete_key); }

static void delete_tree(script *it, words *line) { named(it, line, zug_delete_tree); }

static void set_security(script *it, words *line) {
    uint64_t handle = number(line, UINT64_MAX);
    text own = data(line);
    if (!ends(line)) {
        bad(it);
        return;
    }
    told(it, zug_set_security(&it->hive, it->session, it->moment, handle, own.at, own.length));
}

static void notify(script *it, words *line) {
    uint64_t handle = number(line, UINT64_MAX), watch;
    uint32_t filter = small(line);
    bool subtree = zero_or_one(line);
    if (!ends(line)) {
        bad(it);
        return;
    }
    uint32_t status = zug_notify(&it->hive, it->session, it->moment, handle, filter, subtree, &watch);
    told_number(it, status, "watch", watch);
}

static void close_handle(script *it, words *line) {
    uint64_t handle = number(line, UINT64_MAX);
    if (!ends(line)) {
        bad(it);
        return;
    }
    told(it, zug_close(&it->hive, it->session, it->moment, handle));
}

/* ---- Questions ---- */

/* To C a room of no bytes asks for the size alone, as `-` does in a script. There such a room is too short for any data. */
static uint32_t by_room(uint32_t status, room given, uint32_t size) {
    return status == 0 && given.is_given && given.length == 0 && size > 0 ? ZUG_MORE_DATA : status;
}

/* The reply that tells a value: its name, where it was asked by its index, type, size and data. */
static void told_value(script *it, uint32_t status, const text *value, uint32_t kind, text bytes, bool is_with_data) {
    if (status && status != ZUG_MORE_DATA) {
        told(it, status);
        return;
    }
    fprintf(it->out, "%" PRIu32, status);
    if (status == 0 && value) {
        fputc(' ', it->out);
        put_name(it, *value);
    }
    fprintf(it->out, " type %" PRIu32 " size %zu", kind, bytes.length);
    if (status == 0 && is_with_data)
        put_data(it, bytes);
    fputc('\n', it->out);
}

static void query_value(script *it, words *line) {
    uint64_t handle = number(line, UINT64_MAX);
    text value = name(line);
    room given = room_or_none(line);
    uint32_t kind, size;
    if (!ends(line)) {
        bad(it);
        return;
    }
    text bytes = taken(given.length, LONGEST_DATA);
    uint32_t status = zug_query_value(&it->hive, it->session, handle, value.at, value.length, bytes.at, bytes.length, &kind, &size);
    told_value(it, by_room(status, given, size), NULL, kind, (text){bytes.at, size}, given.is_given);
    free(bytes.at);
}

static void enum_value(script *it, words *line) {
    uint64_t handle = number(line, UINT64_MAX);
    uint32_t index = small(line), for_name = small(line), name_size, kind, size;
    room given = room_or_none(line);
    if (!ends(line)) {
        bad(it);
        return;
    }
    text value = taken(for_name, LONGEST_NAME), bytes = taken(given.length, LONGEST_DATA);
    uint32_t status = zug_enum_value(&it->hive, it->session, handle, index, value.at, value.length, &name_size,
                                     bytes.at, bytes.length, &kind, &size);
    value.length = name_size;
    told_value(it, by_room(status, given, size), &value, kind, (text){bytes.at, size}, given.is_given);
    free(value.at);
    free(bytes.at);
}

static void enum_key(script *it, words *line) {
    uint64_t handle = number(line, UINT64_MAX), time;
    uint32_t index = small(line), length = small(line), size;
    if (!ends(line)) {
        bad(it);
        return;
    }
    text key = taken(length, LONGEST_NAME);
    uint32_t status = zug_enum_key(&it->hive, it->session, handle, index, key.at, key.length, &size, &time);
    if (status == 0) {
        fputs("0 ", it->out);
        put_name(it, (text){key.at, size});
        fprintf(it->out, " time %" PRIu64 "\n", time);
    } else if (status == ZUG_MORE_DATA) {
        fprintf(it->out, "234 size %" PRIu32 "\n", size);
    } else {
        told(it, status);
    }
    free(key.at);
}

static void query_info(script *it, words *line) {
    uint64_t handle = number(line, UINT64_MAX);
    zug_info info;
    if (!ends(line)) {
        bad(it);
        return;
    }
    uint32_t status = zug_query_info(&it->hive, it->session, handle, &info);
    if (status) {
        told(it, status);
        return;
    }
    fprintf(it->out, "0 subkeys %" PRIu32 " longest %" PRIu32 " values %" PRIu32 " longest %" PRIu32, info.subkeys, info.longest_key,
            info.values, info.longest_value);
    fprintf(it->out, " largest %" PRIu32 " security %" PRIu32 " time %" PRIu64 "\n", info.largest, info.security, info.time);
}

static void get_security(script *it, words *line) {
    uint64_t handle = number(line, UINT64_MAX);
    uint32_t length = small(line), size;
    if (!ends(line)) {
        bad(it);
        return;
    }
    text own = taken(length, TOO_LONG);
    uint32_t status = zug_get_security(&it->hive, it->session, handle, own.at, own.length, &size);
    if (status == 0) {
        fputc('0', it->out);
        put_data(it, (text){own.at, size});
        fputc('\n', it->out);
    } else if (status == ZUG_INSUFFICIENT_BUFFER) {
        fprintf(it->out, "122 size %" PRIu32 "\n", size);
    } else {
        told(it, status);
    }
    free(own.at);
}

/* ---- Notices and settings ---- */

static void notice(script *it, words *line) {
    static const char *const reasons[] = {"", "matched", "gone", "closed"};
    uint64_t watch, entry;
    uint32_t reason;
    if (!ends(line)) {
        bad(it);
        return;
    }
    if (zug_take_notice(&it->hive, it->session, &watch, &entry, &reason))
        fputs("notice none\n", it->out);
    else
        fprintf(it->out, "notice %" PRIu64 " %" PRIu64 " %s\n", watch, entry, reason < 4 ? reasons[reason] : "");
}

static void set_moment(script *it, words *line) {
    uint64_t moment = number(line, UINT64_MAX);
    if (!ends(line)) {
        bad(it);
        return;
    }
    it->moment = moment;
}

static void set_session(script *it, words *line) {
    uint64_t session = number(line, 63);
    if (!ends(line)) {
        bad(it);
        return;
    }
    it->session = (uint8_t)session;
}

/* There is one hive. */
static void set_hive(script *it, words *line) {
    number(line, 0);
    if (!ends(line))
        bad(it);
}

/* ---- A script ---- */

static const struct {
    const char *word;
    void (*run)(script *, words *);
} verbs[] = {
    {"at", set_moment},
    {"as", set_session},
    {"hive", set_hive},
    {"root", open_root},
    {"open", open_key},
    {"create", create_key},
    {"set", set_value},
    {"delvalue", delete_value},
    {"delkey", delete_key},
    {"deltree", delete_tree},
    {"setsec", set_security},
    {"notify", notify},
    {"close", close_handle},
    {"query", query_value},
    {"enumkey", enum_key},
    {"enumvalue", enum_value},
    {"info", query_info},
    {"getsec", get_security},
    {"notice", notice},
};

static void run_line(script *it, text given) {
    words line = {given, false, false};
    if (given.length == 0 || given.at[0] == '#')
        return;
    text verb = next(&line);
    for (size_t at = 0; at < sizeof verbs / sizeof *verbs; at++)
        if (is(verb, verbs[at].word)) {
            verbs[at].run(it, &line);
            return;
        }
    bad(it);
}

static void run_lines(script *it, text lines) {
    while (lines.length) {
        uint8_t *end = memchr(lines.at, '\n', lines.length);
        size_t length = end ? (size_t)(end - lines.at) : lines.length;
        run_line(it, (text){lines.at, length});
        length += end != NULL;
        lines = (text){lines.at + length, lines.length - length};
    }
}

/* Writes the image of the hive that a script left, with its last moment. */
static bool put_image(script *it, FILE *out) {
    uint64_t size, entries;
    if (zug_image_size(&it->hive, &size, &entries))
        return false;
    uint8_t *image = malloc(size);
    bool is_well = image && zug_image_part(&it->hive, it->moment, 1, entries, 0, image, size) == 0 && fwrite(image, 1, size, out) == size;
    free(image);
    return is_well;
}

static bool run(text lines, bool is_of_image) {
    script it = {{0, NULL}, 0, 0, is_of_image ? fopen("/dev/null", "w") : stdout};
    if (!it.out || zug_hive_new(&it.hive, ROOT, descriptor, sizeof descriptor, 0))
        return false;
    run_lines(&it, lines);
    bool is_well = !is_of_image || (put_image(&it, stdout) && fclose(it.out) == 0);
    zug_hive_close(&it.hive);
    return is_well;
}

/* All bytes of a file. */
static bool read_whole(FILE *in, text *whole) {
    size_t held = 0, more;
    *whole = (text){NULL, 0};
    do {
        if (whole->length == held) {
            held = held ? 2 * held : 65536;
            uint8_t *at = realloc(whole->at, held);
            if (!at)
                return false;
            whole->at = at;
        }
        more = fread(whole->at + whole->length, 1, held - whole->length, in);
        whole->length += more;
    } while (more);
    return !ferror(in);
}

static bool run_file(FILE *in, bool is_of_image) {
    text lines;
    bool is_well = in && read_whole(in, &lines);
    if (is_well) {
        is_well = run(lines, is_of_image);
        free(lines.at);
    }
    if (in)
        fclose(in);
    return is_well;
}

int main(int count, char **given) {
    bool is_of_image = count > 1 && strcmp(given[1], "--image") == 0;
    int first = is_of_image ? 2 : 1;
    if (first == count)
        return !run_file(stdin, is_of_image);
    for (int at = first; at < count; at++) {
        if (count - first > 1)
            printf("script %s\n", given[at]);
        if (!run_file(fopen(given[at], "rb"), is_of_image)) {
            fprintf(stderr, "%s wasn't run\n", given[at]);
            return 1;
        }
    }
    return fflush(stdout) != 0;
}
