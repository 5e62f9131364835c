// A ring of values behind a mutex, which is held for a whole batch.
#include "bench.h"
#include <pthread.h>

enum { ROOM = 1 << 13 };

static pthread_mutex_t lock = PTHREAD_MUTEX_INITIALIZER;
static uint64_t ring[ROOM];
static uint64_t first, end;

int queue_make(unsigned callers, unsigned batch) { return callers * batch > ROOM; }

void queue_end(void) {}

static void put(struct share *share, uint64_t value) {
    ring[end++ % ROOM] = value;
    share->put++;
    share->put_sum += value;
}

static void get(struct share *share) {
    if (first == end) return;
    share->got_sum += ring[first++ % ROOM];
    share->got++;
}

void queue_work(struct share *share) {
    uint64_t next = 0;
    for (uint64_t k = 0; k < share->times; k++) {
        if (share->batch == 1) {
            pthread_mutex_lock(&lock);
            put(share, value_of(share->caller, next++));
            pthread_mutex_unlock(&lock);
            pthread_mutex_lock(&lock);
            get(share);
            pthread_mutex_unlock(&lock);
            continue;
        }
        pthread_mutex_lock(&lock);
        for (unsigned j = 0; j < share->batch / 2; j++) {
            put(share, value_of(share->caller, next++));
            get(share);
        }
        pthread_mutex_unlock(&lock);
    }
}
