/* zugmeled: the configuration manager of the Windows registry over one hive, in your process.
 *
 * A hive is a tree of keys in memory. It is made new or loaded from the bytes of a primary file (regf, versions 1.3 to 1.5), and its image
 * is such bytes again. The calls are those of the Win32 registry reference; docs/RULES.md says what each does.
 *
 *     #include <stdio.h>
 *     #include <zugmeled.h>
 *
 *     int main(void) {
 *         zug_hive hive = {0};
 *         uint64_t root;
 *         zug_hive_new(&hive, ZUG_TEXT("ROOT"), ZUG_EMPTY_SECURITY, 0);
 *         zug_open_root(&hive, 0, 0, ZUG_ALL_ACCESS, &root);
 *         printf("%u\n", zug_set_value(&hive, 0, 0, root, ZUG_TEXT("Version"), ZUG_DWORD, ZUG_TEXT("\4\0\0\0")));
 *         zug_hive_close(&hive);
 *     }
 *
 * bindings/c/example.c goes on from there: it asks for the value, and saves the hive's image to a file.
 *
 * Status. Each function but zug_version and zug_hive_close answers a status of Win32: 0 is success. Under each stands which others come.
 * 6 comes where the zug_hive holds no hive, 87 where the session is 64 or above, both before all else. 8 comes where memory was refused:
 * for a copy of a path, a name, data or a descriptor of more than 16 bytes, before all else that a call tests, or in place of a success
 * that needed some. No call ends the process while the stack is enough.
 *
 * What goes out. A call that answers another status than 0 changes nothing of the hive, sets each number that it hands out to 0, and leaves
 * each room, a buffer of yours, as it was. Only 234 and 122 tell a size, and 234 a type, or a key's row, or the first of several. With 0 a room has the
 * answer at its front; what is behind that stays as it was. Ask the status, not the handle: 0 is a handle's number too.
 *
 * Units. A moment is in units of 100 ns since 1601, in UTC: now it is (uint64_t)(time(NULL) + 11644473600) * 10000000. It becomes the last
 * write time of the keys that a call changes, and need not rise. Sizes, lengths, rooms and offsets are in bytes, but for the lengths of arrays
 * of zug_subkey and zug_value, which count these.
 *
 * Names. A key's name has 1 to 255 bytes, a value's 0 to 16,383; each byte is 0x01 to 0x7F, and in a key's name no backslash. A path is up
 * to 512 names of keys, joined by a backslash; the empty path is the handle's own key. Case is kept, and makes no difference. No text is
 * ended by a 0 byte, and none that is handed out is.
 *
 * Security. A descriptor is any bytes: they are kept as they are, and no call is checked against them. Windows wants a self-relative one.
 *
 * What you owe, since nothing can test it:
 *   - A zug_hive is all zero before its first call. Nothing but these functions writes its words. You may move it between calls, but of two
 *     copies use one. A hive that is not closed is never freed.
 *   - One call at a time on one zug_hive. It may pass from thread to thread where a lock, a start or a join of yours orders that, so a lock
 *     for each hive is enough. Calls on different hives need none.
 *   - A pointer points to what its type says. NULL is only allowed before a length of 0: it is empty, as any other address is there.
 *   - What a call writes to overlaps nothing else that the call is given.
 *   - malloc, realloc and free are one allocator's. No call comes from a signal handler, nor from the child of a process with threads.
 *   - The calling thread has enough stack: where that ends, the system ends the process. No proof says how much a call takes. The tests run
 *     with 8 MiB, and those of bindings/rust with 2 MiB; with less nothing was tried.
 *
 * Link libzugmeled.a, which ./build --library puts in dist beside this header: `cc program.c -Idist dist/libzugmeled.a`. By pkg-config it is
 * `cc program.c $(PKG_CONFIG_PATH=dist pkg-config --cflags --libs zugmeled)`.
 */
#ifndef ZUGMELED_H
#define ZUGMELED_H

#include <stdbool.h>
#include <stddef.h>
#include <stdint.h>

#ifdef __cplusplus
extern "C" {
#endif

/* The version of this header: 10,000 a version, 100 a lower one, 1 a patch. */
#define ZUG_VERSION 10000

/* The version of the library that was linked. It suits this header where it is the same version, and no lower number than ZUG_VERSION. */
uint32_t zug_version(void);

/* The bytes of a string literal, without its 0 byte, and how many they are: two arguments of a call. */
#define ZUG_TEXT(literal) (const uint8_t *)(literal), sizeof(literal) - 1

/* The same of the least security descriptor that Windows takes, which has no owner, no group and no lists. */
#define ZUG_EMPTY_SECURITY ZUG_TEXT("\1\0\4\200\0\0\0\0\0\0\0\0\0\0\0\0\0\0\0\0")

/* Statuses. */
#define ZUG_SUCCESS 0u
#define ZUG_FILE_NOT_FOUND 2u       /* no such key, or no such value */
#define ZUG_ACCESS_DENIED 5u        /* the handle lacks the right, or the key may not be deleted */
#define ZUG_INVALID_HANDLE 6u       /* no hive, or the session has no such handle */
#define ZUG_NOT_ENOUGH_MEMORY 8u    /* memory was refused */
#define ZUG_INVALID_PARAMETER 87u   /* a session, a name, a path, a mask, data, a descriptor or a filter that no call may have */
#define ZUG_INSUFFICIENT_BUFFER 122u /* the room is too short for the descriptor */
#define ZUG_BUSY 170u               /* handles are open */
#define ZUG_ALREADY_EXISTS 183u     /* the zug_hive holds a hive */
#define ZUG_MORE_DATA 234u          /* the room is too short for the answer */
#define ZUG_NO_MORE_ITEMS 259u      /* no subkey, no value or no notice is there */
#define ZUG_NOT_REGISTRY_FILE 1017u /* the bytes are no image that is loaded */
#define ZUG_KEY_DELETED 1018u       /* the handle's key was deleted */
#define ZUG_NO_SYSTEM_RESOURCES 1450u /* a count is at its limit, or the bins have no room */

/* Rights, which are joined by | to a mask. A mask with another bit is 87. A handle has those that it was opened with. To open, make and delete
 * keys below it, but for zug_delete_tree, it needs none. */
#define ZUG_QUERY_VALUE 0x1u        /* to ask for values, and for the key's numbers */
#define ZUG_SET_VALUE 0x2u          /* to set and delete values */
#define ZUG_CREATE_SUB_KEY 0x4u     /* no call asks for it */
#define ZUG_ENUMERATE_SUB_KEYS 0x8u /* to list subkeys */
#define ZUG_NOTIFY 0x10u            /* to ask for notices */
#define ZUG_CREATE_LINK 0x20u       /* no call asks for it */
#define ZUG_DELETE 0x10000u         /* to delete trees */
#define ZUG_READ_CONTROL 0x20000u   /* to ask for the security descriptor */
#define ZUG_WRITE_DAC 0x40000u      /* to set the security descriptor */
#define ZUG_WRITE_OWNER 0x80000u    /* no call asks for it */
#define ZUG_ALL_ACCESS 0xF003Fu     /* all of these */

/* Types of values: REG_NONE and so on. A type may be any other number too, and no call looks at the data by it. Texts are UTF-16LE. */
#define ZUG_NONE 0u                        /* data without a type */
#define ZUG_SZ 1u                          /* a text, with a zero at its end */
#define ZUG_EXPAND_SZ 2u                   /* a text with names of environment variables in it, with a zero at its end */
#define ZUG_BINARY 3u                      /* bytes */
#define ZUG_DWORD 4u                       /* a number of 32 bits, its lowest byte first */
#define ZUG_DWORD_BIG_ENDIAN 5u            /* a number of 32 bits, its highest byte first */
#define ZUG_LINK 6u                        /* the path of another key, as a text without an end */
#define ZUG_MULTI_SZ 7u                    /* texts, each with a zero at its end, and one more behind the last */
#define ZUG_RESOURCE_LIST 8u               /* a driver's resources */
#define ZUG_FULL_RESOURCE_DESCRIPTOR 9u    /* a device's resources */
#define ZUG_RESOURCE_REQUIREMENTS_LIST 10u /* what resources a driver may be given */
#define ZUG_QWORD 11u                      /* a number of 64 bits, its lowest byte first */

/* Limits: the most of each. Past one of a name, a path, data, a descriptor or a session a call is 87, past another 1450. */
#define ZUG_KEY_NAME_LIMIT 255u     /* bytes of a key's name */
#define ZUG_VALUE_NAME_LIMIT 16383u /* bytes of a value's name */
#define ZUG_PATH_LIMIT 512u         /* names of a path; from the root on, past them 1450 */
#define ZUG_DATA_LIMIT 1048576u     /* bytes of a value's data */
#define ZUG_DESCRIPTOR_LIMIT 65535u /* bytes of a security descriptor */
#define ZUG_SESSIONS_LIMIT 64u      /* sessions of a hive: 0 to 63 */
#define ZUG_MADE_LIMIT 32u          /* missing keys that one zug_create_key makes */
#define ZUG_SUBKEYS_LIMIT 60000u    /* subkeys of a key */
#define ZUG_VALUES_LIMIT 16384u     /* values of a key */
#define ZUG_HANDLES_LIMIT 16384u    /* open handles of a session */
#define ZUG_WATCHES_LIMIT 4096u     /* watches of a session that wait */
#define ZUG_JOURNAL_LIMIT 16777216u /* kept entries and open handles of a hive together */
#define ZUG_BINS_LIMIT 268435456u   /* bytes of a hive's bins, where its keys stand; its image has 4,096 more */

/* What a hive is held by: two words of yours. `zug_hive hive = {0};` holds none, in C++ `zug_hive hive = {};`. */
typedef struct zug_hive {
    uint64_t holds;
    void *at;
} zug_hive;

/* ---- A hive's life ---- */

/* Makes a hive of one root, last written at the moment, with a name and a security descriptor of 1 to 65,535 bytes.
 * 183: the zug_hive holds a hive, and keeps it. 87: no key may have the name, or the descriptor is empty or too long. 8. */
uint32_t zug_hive_new(zug_hive *hive, const uint8_t *root_name, size_t root_name_length,
                      const uint8_t *descriptor, size_t descriptor_length, uint64_t moment);

/* Loads a hive from the image at the front of some bytes. Bytes behind its bins aren't read, and none are kept.
 * 183: the zug_hive holds a hive, and keeps it. 8. 1017: the bytes are no image that is loaded. `fault` is then the first test that fails:
 * 2 too short, 3 signature, 4 version, 5 checksum, 6 not written to its end, 7 a bin, 8 a cell, 9 a record, 10 a key below itself, 11 a cell
 * or a name twice, 12 something that isn't supported, 13 a limit. Else `fault` is 0. */
uint32_t zug_hive_load(zug_hive *hive, const uint8_t *bytes, size_t length, uint8_t *fault);

/* Frees a hive, with its handles, and the zug_hive holds none. With no hive nothing happens. */
void zug_hive_close(zug_hive *hive);

/* ---- Its journal ----
 * Each change that is accepted is an entry of the hive's journal, which stays in memory: some 200 bytes and what was given. Journal and open
 * handles together have at most 16,777,216; then changes are 1450 until it is cut. */

/* How many entries the hive has had, and how many of them its journal keeps.
 * 6. */
uint32_t zug_entries(zug_hive *hive, uint64_t *entries, uint64_t *kept);

/* Frees the journal's entries: `cut` is how many. Keys, and notices that weren't taken, stay; the numbers go on.
 * 6. 170: a handle is open, of whatever session. 1450: the hive has had more than 10^18 entries. */
uint32_t zug_hive_cut(zug_hive *hive, uint64_t *cut);

/* ---- Its image ---- */

/* How many bytes the hive's image has, and how many entries the hive has had.
 * 6. */
uint32_t zug_image_size(zug_hive *hive, uint64_t *size, uint64_t *entries);

/* Fills a room with the bytes of the hive's image from an offset on. What of the room reaches behind the image's end stays as it was.
 * `moment` and `sequence` stand in the image's base block; the second is best one more than that of the file before, 32 bits at its byte 4.
 * `entries` is what zug_image_size told: so parts of one hive's image are of one state. No memory is taken.
 * 6. 87: the hive has had another number of entries by now. */
uint32_t zug_image_part(zug_hive *hive, uint64_t moment, uint32_t sequence, uint64_t entries, uint64_t offset,
                        uint8_t *room, size_t room_length);

/* ---- Changes ----
 * Each takes a session, below 64, to which its handles and notices belong: they are of use to it alone. Sessions need no start; where one
 * caller is enough, 0 is. C cuts a number that uint8_t doesn't hold, before the call sees it: 256 is session 0.
 * Where a handle is given: 6 the session has no such handle, 1018 its key was deleted. All but zug_close: 1450 the journal has no room. */

/* Opens a handle to the root, with the rights of a mask.
 * 6, 8, 87: a mask. 1450: the session has 16,384 handles. */
uint32_t zug_open_root(zug_hive *hive, uint8_t session, uint64_t moment, uint32_t mask, uint64_t *opened);

/* Opens a handle to the key at the end of a path from a handle's key.
 * 2: no such key. 6, 8, 87: a path or a mask. 1018, 1450: as zug_open_root. */
uint32_t zug_open_key(zug_hive *hive, uint8_t session, uint64_t moment, uint64_t handle,
                      const uint8_t *path, size_t path_length, uint32_t mask, uint64_t *opened);

/* What zug_create_key did. */
#define ZUG_CREATED 1u /* a key of the path was made */
#define ZUG_OPENED 2u  /* all were there */

/* Makes the keys of a path that are missing, at most 32, and opens a handle to the last. `disposition` is one of the two above. The last key
 * made has the descriptor, of at most 65,535 bytes; with a descriptor of length 0 it has its parent's, as the others.
 * 6, 8, 87: a path, a mask or a descriptor. 1018, 1450: as zug_open_root; or too many keys are missing, a path is too deep, a key has 60,000
 * subkeys, or the bins have no room. */
uint32_t zug_create_key(zug_hive *hive, uint8_t session, uint64_t moment, uint64_t handle,
                        const uint8_t *path, size_t path_length, uint32_t mask,
                        const uint8_t *descriptor, size_t descriptor_length,
                        uint64_t *opened, uint32_t *disposition);

/* Sets a value: its type, which is any number, and its data, of at most 1,048,576 bytes. The empty name is the default value's.
 * 5: the handle lacks ZUG_SET_VALUE. 6, 8, 87: a name or the data. 1018, 1450: the key has 16,384 values, or the bins have no room. */
uint32_t zug_set_value(zug_hive *hive, uint8_t session, uint64_t moment, uint64_t handle,
                       const uint8_t *name, size_t name_length, uint32_t kind,
                       const uint8_t *bytes, size_t length);

/* Deletes a value.
 * 2: no such value. 5: the handle lacks ZUG_SET_VALUE. 6, 8, 87: a name. 1018, 1450. */
uint32_t zug_delete_value(zug_hive *hive, uint8_t session, uint64_t moment, uint64_t handle,
                          const uint8_t *name, size_t name_length);

/* Deletes the key at the end of a path, with its values. Handles to it answer 1018 from then on, but to zug_close.
 * 2: no such key. 5: it has subkeys, or is marked as not to be deleted. 6, 8, 87: a path, or the empty one. 1018, 1450. */
uint32_t zug_delete_key(zug_hive *hive, uint8_t session, uint64_t moment, uint64_t handle,
                        const uint8_t *path, size_t path_length);

/* Deletes the key at the end of a path with all keys below it. With the empty path the handle's key stays, without subkeys and values.
 * 2: no such key. 5: the handle lacks ZUG_DELETE, ZUG_ENUMERATE_SUB_KEYS or ZUG_QUERY_VALUE, with the empty path also ZUG_SET_VALUE; or a key
 * is marked as not to be deleted. 6, 8, 87: a path. 1018, 1450. */
uint32_t zug_delete_tree(zug_hive *hive, uint8_t session, uint64_t moment, uint64_t handle,
                         const uint8_t *path, size_t path_length);

/* Gives a handle's key a security descriptor of 1 to 65,535 bytes, which is kept as it is.
 * 5: the handle lacks ZUG_WRITE_DAC. 6, 8, 87: the descriptor is empty or too long. 1018, 1450: the bins have no room. */
uint32_t zug_set_security(zug_hive *hive, uint8_t session, uint64_t moment, uint64_t handle,
                          const uint8_t *descriptor, size_t descriptor_length);

/* Kinds of changes, which are joined by | to a filter. */
#define ZUG_FILTER_NAME 0x1u                   /* a subkey was made or deleted */
#define ZUG_FILTER_ATTRIBUTES 0x2u             /* the security descriptor was set */
#define ZUG_FILTER_LAST_SET 0x4u               /* a value was set or deleted */
#define ZUG_FILTER_SECURITY 0x8u               /* the security descriptor was set */
#define ZUG_FILTER_THREAD_AGNOSTIC 0x10000000u /* none: it may be there too, and changes nothing */

/* Asks for one notice: of the next change of a handle's key, and with `subtree` of a key below it too, of a kind that the filter names.
 * `watch` is the number by which the notice names what was asked for. The watch ends with the handle too.
 * 5: the handle lacks ZUG_NOTIFY. 6, 8, 87: a filter without one of the first four, or with another bit. 1018, 1450: the session waits for
 * 4,096. */
uint32_t zug_notify(zug_hive *hive, uint8_t session, uint64_t moment, uint64_t handle, uint32_t filter, bool subtree,
                    uint64_t *watch);

/* Closes a handle.
 * 6. */
uint32_t zug_close(zug_hive *hive, uint8_t session, uint64_t moment, uint64_t handle);

/* ---- Questions ----
 * Each is asked of a handle's key. 6: the session has no such handle. 1018: its key was deleted. */

/* A value by its name: its type, its size, and its data in the room. A room of length 0 asks for the type and the size alone.
 * 2: no such value. 5: the handle lacks ZUG_QUERY_VALUE. 6, 8, 87: a name. 234: the room is too short; type and size are told. 1018. */
uint32_t zug_query_value(zug_hive *hive, uint8_t session, uint64_t handle, const uint8_t *name, size_t name_length,
                         uint8_t *room, size_t room_length, uint32_t *kind, uint32_t *size);

/* The subkey at an index, from 0 in the order of names: its name in the room, the name's size, and when the key was last written.
 * 5: the handle lacks ZUG_ENUMERATE_SUB_KEYS. 6. 234: the room is too short; the size is told. 259: no subkey has the index. 1018. It takes
 * no memory. */
uint32_t zug_enum_key(zug_hive *hive, uint8_t session, uint64_t handle, uint32_t index,
                      uint8_t *name_room, size_t name_room_length, uint32_t *name_size, uint64_t *time);

/* The value at an index, from 0 in the order in which names were added: its name in one room, with its size, its type, and its data in the other
 * room, with its size. A room of length 0 for the data asks for its size alone; the name has to find room.
 * 5: the handle lacks ZUG_QUERY_VALUE. 6, 8. 234: a room is too short; the type and the size of the data are told, not that of the name
 * (zug_query_info tells the longest). 259: no value has the index. 1018. */
uint32_t zug_enum_value(zug_hive *hive, uint8_t session, uint64_t handle, uint32_t index,
                        uint8_t *name_room, size_t name_room_length, uint32_t *name_size,
                        uint8_t *room, size_t room_length, uint32_t *kind, uint32_t *size);

/* What zug_query_info tells. Sizes are in bytes. */
typedef struct zug_info {
    uint32_t subkeys;       /* how many */
    uint32_t longest_key;   /* the longest of their names */
    uint32_t values;        /* how many */
    uint32_t longest_value; /* the longest of their names */
    uint32_t largest;       /* the largest of their data */
    uint32_t security;      /* the size of the security descriptor */
    uint64_t time;          /* when the key was last written */
} zug_info;

/* A key's numbers.
 * 5: the handle lacks ZUG_QUERY_VALUE. 6, 1018. */
uint32_t zug_query_info(zug_hive *hive, uint8_t session, uint64_t handle, zug_info *info);

/* A key's security descriptor in the room, and its size.
 * 5: the handle lacks ZUG_READ_CONTROL. 6, 8. 122: the room is too short; the size is told. 1018. */
uint32_t zug_get_security(zug_hive *hive, uint8_t session, uint64_t handle, uint8_t *room, size_t room_length,
                          uint32_t *size);

/* ---- Questions by a path ----
 * These step through keys without a handle, and so without a session, rights or an entry of the journal. Each is asked of the key at the end
 * of a path from the root; the empty path is the root's own.
 * 2: no such key. 6, 87: a path. They take no memory. */

/* A key, as it stands among others. */
typedef struct zug_subkey {
    uint64_t time;      /* when the key was last written */
    uint32_t name_size; /* the size of its name */
    uint32_t subkeys;   /* how many subkeys it has */
    uint32_t values;    /* how many values it has */
    uint32_t marks;     /* its marks: 8 that it may not be deleted; others stand in its key node's flags */
} zug_subkey;

/* A value, as it stands among others. */
typedef struct zug_value {
    uint32_t name_size; /* the size of its name */
    uint32_t kind;      /* its type */
    uint32_t size;      /* the size of its data */
} zug_value;

/* The key itself, with its name in the room.
 * 234: the room is too short for the name; the key is told all the same. */
uint32_t zug_key_at(zug_hive *hive, const uint8_t *path, size_t path_length, zug_subkey *key,
                    uint8_t *name_room, size_t name_room_length);

/* The subkeys from an index on, in the order of names, as many as have place: `count` of them. Of each there is a zug_subkey, and its name in
 * the room, right behind the one before. Go on from the index behind them, until 259.
 * 234: not one has place; where there is a zug_subkey, it tells of the first all the same. 259: no subkey has the index. */
uint32_t zug_subkeys_at(zug_hive *hive, const uint8_t *path, size_t path_length, uint32_t index,
                        zug_subkey *subkeys, size_t subkeys_length, uint8_t *name_room, size_t name_room_length, uint32_t *count);

/* The values from an index on, in the order in which names were added, as many as have place: `count` of them. Of each there is a zug_value,
 * and its name and then its data in the room, right behind the one before. Go on from the index behind them, until 259.
 * 234: not one has place; where there is a zug_value, it tells of the first all the same. 259: no value has the index. */
uint32_t zug_values_at(zug_hive *hive, const uint8_t *path, size_t path_length, uint32_t index,
                       zug_value *values, size_t values_length, uint8_t *room, size_t room_length, uint32_t *count);

/* The subkeys from an index on, in the order of names, each with all its values as zug_values_at tells them, as many subkeys as have place:
 * `count` of them. Of each subkey there is a zug_subkey, and of each of its values a zug_value, behind those of the subkeys before. In the room
 * are the subkey's name, and then each value's name and data, right behind the subkey before. Go on from the index behind them, until 259.
 * 234: the first has no place with all its values, and nothing is told; ask by zug_subkeys_at and zug_values_at. 259: no subkey has the
 * index. */
uint32_t zug_subkeys_with_values_at(zug_hive *hive, const uint8_t *path, size_t path_length, uint32_t index,
                                    zug_subkey *subkeys, size_t subkeys_length, zug_value *values, size_t values_length,
                                    uint8_t *room, size_t room_length, uint32_t *count);

/* ---- Notices ---- */

/* Why a notice came. */
#define ZUG_MATCHED 1u /* a change that was waited for */
#define ZUG_GONE 2u    /* the key was deleted */
#define ZUG_CLOSED 3u  /* the handle was closed */

/* Hands out a session's next notice, once: the number of the watch that it ends, the number of the entry that ended it, and why.
 * 6. 259: the session has no notice. */
uint32_t zug_take_notice(zug_hive *hive, uint8_t session, uint64_t *watch, uint64_t *entry, uint32_t *reason);

/* ---- What a change would meet ---- */

/* The changes, each the function of its name; ZUG_SET is zug_set_value, ZUG_NOTIFY_CHANGE zug_notify. */
#define ZUG_OPEN_ROOT 0u
#define ZUG_OPEN_KEY 1u
#define ZUG_CREATE_KEY 2u
#define ZUG_SET 3u
#define ZUG_DELETE_VALUE 4u
#define ZUG_DELETE_KEY 5u
#define ZUG_DELETE_TREE 6u
#define ZUG_SET_SECURITY 7u
#define ZUG_NOTIFY_CHANGE 8u
#define ZUG_CLOSE 9u

/* The status by which a change would be refused now, or 0. Nothing is changed. `change` is one of the ten above. Of the rest it takes what that
 * change takes, and passes over the others: `text` is the path or the name, `number` the mask, the type or the filter, `bytes` the descriptor or
 * the data, `subtree` as in zug_notify. Of want of memory and of room in the bins nothing is told.
 * 6, 87: also where the change is 10 or above. 8: no memory for a copy of what was given. */
uint32_t zug_cause(zug_hive *hive, uint8_t session, uint64_t moment, uint32_t change, uint64_t handle,
                   const uint8_t *text, size_t text_length, uint32_t number,
                   const uint8_t *bytes, size_t length, bool subtree);

#ifdef __cplusplus
}
#endif

#endif
