// Two threads on one lane: the first hands over a batch, and the second takes what is there.
#include "bq.h"
#include <inttypes.h>
#include <pthread.h>
#include <stdio.h>

static void *take_all(void *of) {
    bq_pass *pass = of;
    uint64_t value, sum = 0;
    while (bq_dequeue(pass, &value) == BQ_DONE) sum += value;
    return (void *)(uintptr_t)sum;
}

// Whether each wrong call is refused, and changes nothing.
static int wrong_calls_are_refused(bq_pass *pass) {
    bq_pass none = BQ_NO_PASS_YET, one = BQ_NO_PASS_YET;
    bq_op unknown = {7, 0}, many[5] = {{0, 0}};
    bq_answer answers[5];
    uint64_t value = 9;
    return bq_enqueue(&none, 1) == BQ_NO_PASS && bq_dequeue(&none, &value) == BQ_NO_PASS && value == 9 &&
           bq_close(&none) == BQ_NO_PASS && bq_make(&one, 1, 257, 1, 1) == BQ_BAD_ARGUMENT &&
           bq_make(&one, 0, 1, 1, 1) == BQ_BAD_ARGUMENT && bq_make(pass, 1, 1, 1, 1) == BQ_IN_USE &&
           bq_apply(pass, &unknown, 1, answers, 1) == BQ_BAD_ARGUMENT &&
           bq_apply(pass, many, 5, answers, 5) == BQ_BAD_ARGUMENT && bq_apply(pass, many, 0, answers, 0) == BQ_BAD_ARGUMENT &&
           bq_apply(pass, many, 3, answers, 2) == BQ_BAD_ARGUMENT;
}

// Whether a pass that holds several callers makes no operations, and the pass that went into it is none.
static int several_callers_make_nothing(bq_pass *both, bq_pass *joined) {
    bq_op op = {BQ_DEQUEUE, 0};
    bq_answer answer;
    uint64_t value = 9;
    uint32_t caller = 9;
    return bq_enqueue(both, 1) == BQ_SEVERAL && bq_dequeue(both, &value) == BQ_SEVERAL &&
           bq_apply(both, &op, 1, &answer, 1) == BQ_SEVERAL && bq_caller(both, &caller) == BQ_SEVERAL &&
           bq_made(both, &value) == BQ_SEVERAL && caller == 9 && value == 9 && bq_gather(both, joined) == BQ_NO_PASS &&
           bq_gather(joined, both) == BQ_NO_PASS;
}

int main(void) {
    bq_pass passes[2] = {BQ_NO_PASS_YET, BQ_NO_PASS_YET};
    if (bq_make(passes, 2, 4, 8, 1000) != BQ_DONE) return 1;

    // The dequeue comes first and finds nothing: the three take effect together, in this order.
    bq_op ops[3] = {{BQ_DEQUEUE, 0}, {BQ_ENQUEUE, 5}, {BQ_ENQUEUE, 6}};
    bq_answer answers[3];
    if (bq_apply(&passes[0], ops, 3, answers, 3) != BQ_DONE) return 2;
    if (answers[0].kind != BQ_NOTHING || answers[1].kind != BQ_MADE || answers[2].kind != BQ_MADE) return 3;

    pthread_t other;
    void *sum;
    if (pthread_create(&other, 0, take_all, &passes[1]) || pthread_join(other, &sum)) return 4;
    if (!wrong_calls_are_refused(&passes[0])) return 5;

    uint64_t made;
    uint32_t caller;
    if (bq_made(&passes[1], &made) != BQ_DONE || bq_caller(&passes[1], &caller) != BQ_DONE) return 6;
    printf("caller %" PRIu32 " took %" PRIuPTR " by %" PRIu64 " operations\n", caller, (uintptr_t)sum, made);

    if (bq_gather(&passes[0], &passes[1]) != BQ_DONE) return 7;
    if (!several_callers_make_nothing(&passes[0], &passes[1])) return 8;
    if (bq_close(&passes[0]) != BQ_DONE || bq_close(&passes[0]) != BQ_NO_PASS || bq_close(&passes[1]) != BQ_NO_PASS) return 9;
    return 0;
}
