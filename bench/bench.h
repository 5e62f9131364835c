// What a queue under measurement gives, and what the harness in bench.c asks of it.
#ifndef BENCH_H
#define BENCH_H
#include <stdint.h>

#ifdef __cplusplus
extern "C" {
#endif

// What one thread put in and got out.
struct share {
    unsigned caller;
    unsigned batch;
    uint64_t times;
    uint64_t put, got;
    uint64_t put_sum, got_sum;
    int failed;
    double from, until;
};

// The value number k of a caller.
static inline uint64_t value_of(unsigned caller, uint64_t k) { return ((uint64_t)(caller + 1) << 40) + k; }

// Makes the queue. 0 where that went well.
int queue_make(unsigned callers, unsigned batch);

// Makes share->times commands of share->batch operations, enqueues and dequeues in turn. A batch of 1 is a pair of
// single operations.
void queue_work(struct share *share);

void queue_end(void);

#ifdef __cplusplus
}
#endif
#endif
