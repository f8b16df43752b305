/* Makes a hive, sets a value, asks for it, and saves the hive's image:
 *
 *     cc bindings/c/example.c $(PKG_CONFIG_PATH=dist pkg-config --cflags --libs zugmeled) && ./a.out example.hive
 */
#include "zugmeled.h"

#include <stdio.h>
#include <stdlib.h>

static int save(zug_hive *hive, const char *path) {
    uint64_t size, entries;
    if (zug_image_size(hive, &size, &entries))
        return 1;
    /* The image comes first: where there is no memory for it, a file that is there stays as it is. */
    uint8_t *image = malloc(size);
    FILE *out = image && zug_image_part(hive, 0, 1, entries, 0, image, size) == 0 ? fopen(path, "wb") : NULL;
    int failed = !out || fwrite(image, 1, size, out) != size;
    if (out && fclose(out))
        failed = 1;
    free(image);
    return failed;
}

int main(int count, char **words) {
    zug_hive hive = {0};
    uint64_t root, key;
    uint32_t disposition, kind, size;
    uint8_t room[16];
    if (count < 2 || zug_hive_new(&hive, ZUG_TEXT("ROOT"), ZUG_EMPTY_SECURITY, 0) || zug_open_root(&hive, 0, 0, ZUG_ALL_ACCESS, &root))
        return 1;
    if (zug_create_key(&hive, 0, 0, root, ZUG_TEXT("Software\\Zug"), ZUG_ALL_ACCESS, NULL, 0, &key, &disposition))
        return 1;
    if (zug_set_value(&hive, 0, 0, key, ZUG_TEXT("Version"), ZUG_DWORD, ZUG_TEXT("\1\0\0\0")))
        return 1;
    if (zug_query_value(&hive, 0, key, ZUG_TEXT("version"), room, sizeof room, &kind, &size) == 0)
        printf("type %u size %u first byte %u\n", (unsigned)kind, (unsigned)size, room[0]);
    int failed = save(&hive, words[1]);
    zug_hive_close(&hive);
    return failed;
}
