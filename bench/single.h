// The work of a queue that has no batches: each operation by itself.
#ifndef SINGLE_H
#define SINGLE_H
#include "bench.h"

// Defines `singly`, which does the work by `put(share, value)` and `get(share, &value)`. `get` tells whether it got one.
#define SINGLE_WORK(put, get)                                                   \
    static void singly(struct share *share) {                                   \
        unsigned pairs = share->batch == 1 ? 1 : share->batch / 2;              \
        uint64_t next = 0;                                                      \
        for (uint64_t k = 0; k < share->times; k++) {                           \
            for (unsigned j = 0; j < pairs; j++) {                              \
                uint64_t value = value_of(share->caller, next++), found = 0;    \
                put(share, value);                                              \
                share->put_sum += value;                                        \
                while (!get(share, &found)) {                                   \
                }                                                               \
                share->got_sum += found;                                        \
            }                                                                   \
        }                                                                       \
        share->put = share->got = next;                                         \
    }
#endif
