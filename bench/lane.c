// The lane, through its C interface.
#include "bench.h"
#include "bq.h"
#include <stddef.h>

enum { MOST_CALLERS = 17, MOST_BATCH = 256, ROOM = 256 };

static bq_pass passes[MOST_CALLERS];

int queue_make(unsigned callers, unsigned batch) {
    return bq_make(passes, callers, batch, ROOM, BQ_MOST_ALLOWANCE) != BQ_DONE;
}

void queue_end(void) {
    for (size_t k = 0; k < MOST_CALLERS; k++) bq_close(&passes[k]);
}

static void work_by_pairs(struct share *share) {
    bq_pass *pass = &passes[share->caller];
    for (uint64_t k = 0; k < share->times; k++) {
        uint64_t value = value_of(share->caller, k);
        if (bq_enqueue(pass, value) != BQ_DONE) share->failed = 1;
        share->put++;
        share->put_sum += value;
        if (bq_dequeue(pass, &value) != BQ_DONE) continue;
        share->got++;
        share->got_sum += value;
    }
}

static void count(struct share *share, const bq_answer *answers) {
    for (unsigned j = 0; j < share->batch; j++) {
        if (answers[j].kind != BQ_GOT) continue;
        share->got++;
        share->got_sum += answers[j].value;
    }
}

static void work_by_batches(struct share *share) {
    bq_pass *pass = &passes[share->caller];
    bq_op ops[MOST_BATCH];
    bq_answer answers[MOST_BATCH];
    for (uint64_t k = 0; k < share->times; k++) {
        for (unsigned j = 0; j < share->batch; j += 2) {
            ops[j] = (bq_op){BQ_ENQUEUE, value_of(share->caller, share->put)};
            ops[j + 1] = (bq_op){BQ_DEQUEUE, 0};
            share->put_sum += ops[j].value;
            share->put++;
        }
        if (bq_apply(pass, ops, share->batch, answers, share->batch) != BQ_DONE) {
            share->failed = 1;
            return;
        }
        count(share, answers);
    }
}

void queue_work(struct share *share) {
    if (share->batch == 1) {
        work_by_pairs(share);
    } else {
        work_by_batches(share);
    }
}
