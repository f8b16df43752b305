/* 64 sessions, each on a thread of its own, call one hive under the caller's lock:
 *
 *     cc bindings/c/sessions.c $(PKG_CONFIG_PATH=dist pkg-config --cflags --libs zugmeled) -pthread && ./a.out
 *
 * Each opens the root, sets 100 values of its own and closes its handle. The lock is held for a call, not for all of them. At last the
 * hive has the entries of all, and each value.
 */
#include "zugmeled.h"

#include <pthread.h>
#include <stdio.h>

#define SESSIONS 64
#define VALUES 100

static const uint8_t descriptor[20] = {1, 0, 4, 0x80};

/* A hive with its lock: who calls one takes the other first. */
static struct {
    pthread_mutex_t lock;
    zug_hive hive;
} shared = {PTHREAD_MUTEX_INITIALIZER, {0}};

static uint32_t open_root(uint8_t session, uint64_t *opened) {
    pthread_mutex_lock(&shared.lock);
    uint32_t status = zug_open_root(&shared.hive, session, 0, ZUG_ALL_ACCESS, opened);
    pthread_mutex_unlock(&shared.lock);
    return status;
}

static uint32_t set_value(uint8_t session, uint64_t handle, unsigned number) {
    char name[16];
    int length = snprintf(name, sizeof name, "%u-%u", (unsigned)session, number);
    const uint8_t *name_bytes = (const uint8_t *)name, *bytes = (const uint8_t *)&number;
    pthread_mutex_lock(&shared.lock);
    uint32_t status = zug_set_value(&shared.hive, session, 0, handle, name_bytes, (size_t)length, ZUG_DWORD, bytes, 4);
    pthread_mutex_unlock(&shared.lock);
    return status;
}

static uint32_t close_handle(uint8_t session, uint64_t handle) {
    pthread_mutex_lock(&shared.lock);
    uint32_t status = zug_close(&shared.hive, session, 0, handle);
    pthread_mutex_unlock(&shared.lock);
    return status;
}

/* What a session does. It answers itself where a call is refused. */
static void *work(void *session_at) {
    uint8_t session = *(uint8_t *)session_at;
    uint64_t handle;
    if (open_root(session, &handle))
        return session_at;
    for (unsigned number = 0; number < VALUES; number++)
        if (set_value(session, handle, number))
            return session_at;
    return close_handle(session, handle) ? session_at : NULL;
}

/* How many sessions were refused a call. */
static unsigned run(void) {
    pthread_t threads[SESSIONS];
    uint8_t sessions[SESSIONS];
    unsigned refused = 0;
    for (unsigned at = 0; at < SESSIONS; at++) {
        sessions[at] = (uint8_t)at;
        if (pthread_create(&threads[at], NULL, work, &sessions[at]))
            return SESSIONS;
    }
    for (unsigned at = 0; at < SESSIONS; at++) {
        void *session = NULL;
        pthread_join(threads[at], &session);
        refused += session != NULL;
    }
    return refused;
}

int main(void) {
    uint64_t entries, kept, root;
    zug_info info;
    if (zug_hive_new(&shared.hive, (const uint8_t *)"ROOT", 4, descriptor, sizeof descriptor, 0) || run())
        return 1;
    zug_entries(&shared.hive, &entries, &kept);
    if (zug_open_root(&shared.hive, 0, 0, ZUG_QUERY_VALUE, &root) || zug_query_info(&shared.hive, 0, root, &info))
        return 1;
    printf("%llu entries, %u values\n", (unsigned long long)entries, (unsigned)info.values);
    zug_hive_close(&shared.hive);
    return entries != SESSIONS * (VALUES + 2) || info.values != SESSIONS * VALUES;
}
