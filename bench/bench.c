// One run of a queue: threads that enqueue and dequeue in turn, so that the queue stays short.
//
// usage: PROGRAM THREADS BATCH OPERATIONS
// It prints the nanoseconds that an operation took, over all threads, and the processor time of one. It ends with
// failure where what came out is not what went in.
#define _GNU_SOURCE
#include "bench.h"
#include <inttypes.h>
#include <pthread.h>
#include <stdio.h>
#include <stdlib.h>
#include <time.h>

enum { MOST_THREADS = 16, MOST_BATCH = 256 };

static pthread_barrier_t start;

static double now(clockid_t clock) {
    struct timespec at;
    clock_gettime(clock, &at);
    return at.tv_sec * 1e9 + at.tv_nsec;
}

static void *work(void *of) {
    struct share *share = of;
    pthread_barrier_wait(&start);
    share->from = now(CLOCK_MONOTONIC);
    queue_work(share);
    share->until = now(CLOCK_MONOTONIC);
    return 0;
}

// Runs the threads. Gives the time from the start of the first to the end of the last.
static double run(struct share *shares, unsigned threads) {
    pthread_t each[MOST_THREADS];
    pthread_barrier_init(&start, 0, threads);
    for (unsigned k = 0; k < threads; k++) {
        if (pthread_create(&each[k], 0, work, &shares[k])) exit(2);
    }
    for (unsigned k = 0; k < threads; k++) pthread_join(each[k], 0);
    pthread_barrier_destroy(&start);
    double from = shares[0].from, until = shares[0].until;
    for (unsigned k = 1; k < threads; k++) {
        if (shares[k].from < from) from = shares[k].from;
        if (shares[k].until > until) until = shares[k].until;
    }
    return until - from;
}

// Whether what came out is what went in.
static int agree(const struct share *shares, unsigned threads) {
    struct share sum = {0};
    for (unsigned k = 0; k < threads; k++) {
        sum.put += shares[k].put;
        sum.got += shares[k].got;
        sum.put_sum += shares[k].put_sum;
        sum.got_sum += shares[k].got_sum;
        sum.failed |= shares[k].failed;
    }
    if (!sum.failed && sum.put == sum.got && sum.put_sum == sum.got_sum) return 1;
    fprintf(stderr, "%" PRIu64 " values went in and %" PRIu64 " came out%s\n", sum.put, sum.got,
            sum.failed ? ", and a call was refused" : ", or others");
    return 0;
}

int main(int count, char **words) {
    if (count != 4) {
        fprintf(stderr, "usage: %s THREADS BATCH OPERATIONS\n", words[0]);
        return 2;
    }
    unsigned threads = strtoul(words[1], 0, 10), batch = strtoul(words[2], 0, 10);
    uint64_t operations = strtoull(words[3], 0, 10);
    if (threads < 1 || threads > MOST_THREADS || batch < 1 || batch > MOST_BATCH || (batch > 1 && batch % 2)) return 2;
    unsigned each = batch == 1 ? 2 : batch;
    uint64_t times = operations / threads / each + 1;
    if (queue_make(threads, batch)) {
        fprintf(stderr, "the queue can't be made\n");
        return 3;
    }
    struct share shares[MOST_THREADS] = {{0}};
    for (unsigned k = 0; k < threads; k++) {
        shares[k] = (struct share){.caller = k, .batch = batch, .times = times};
    }
    double processor = now(CLOCK_PROCESS_CPUTIME_ID);
    double took = run(shares, threads);
    processor = now(CLOCK_PROCESS_CPUTIME_ID) - processor;
    if (!agree(shares, threads)) return 1;
    queue_end();
    double made = (double)times * threads * each;
    printf("%.2f %.2f\n", took / made, processor / made);
    return 0;
}
