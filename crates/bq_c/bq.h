// A first-in, first-out queue without locks that several threads share, with batches: operations that take effect together,
// at one point. Each call returns, whatever the other threads do or leave undone.
//
// Link libbq_c.a and liblibc_c.a, the kit's part of it that calls malloc, realloc and free.
//
// A lane is made for a number of callers. Each has a pass, which is used by one call at a time: give each pass to one
// thread, or hand it on by a lock, a thread's start or join, or an atomic that is sequentially consistent. A pass is
// memory that the program keeps; all zero is no pass. Only the functions below change it, and it isn't copied: a copy and
// the pass itself must not both be used.
//
// No pointer is null, each lies on memory of its type, as many as are told, and no two of one call lie on the same memory.
//
// Each function answers a status. Where it isn't BQ_DONE or BQ_EMPTY, nothing was made, and what the call would write
// stays as it was.
#ifndef BQ_H
#define BQ_H
#include <stddef.h>
#include <stdint.h>

#ifdef __cplusplus
extern "C" {
#endif

enum {
    BQ_DONE = 0,         // it was made
    BQ_EMPTY = 1,        // the dequeue found no value
    BQ_FULL = 2,         // the caller's queued values would be more than the room
    BQ_SPENT = 3,        // the caller's operations would be more than the allowance
    BQ_NO_MEMORY = 4,    // memory was lacking
    BQ_BAD_ARGUMENT = 5, // a number is out of range, a kind isn't known, or the lengths don't fit
    BQ_NO_PASS = 6,      // the pass was closed, or never made
    BQ_IN_USE = 7,       // one of the passes to be made is in use
    BQ_SEVERAL = 8,      // the pass holds several callers
};

// The limits of a lane.
#define BQ_MOST_CALLERS 17
#define BQ_MOST_BATCH 256
#define BQ_MOST_ROOM 256
#define BQ_MOST_ALLOWANCE ((uint64_t)1 << 38)

typedef struct bq_pass {
    void *seat;
    uint32_t state;
} bq_pass;

// No pass: what a bq_pass is before bq_make and after bq_close.
#define BQ_NO_PASS_YET {0, 0}

enum {
    BQ_ENQUEUE = 1, // appends the value
    BQ_DEQUEUE = 2, // takes the first value; that of the operation isn't read
};

typedef struct bq_op {
    uint32_t kind;
    uint64_t value;
} bq_op;

enum {
    BQ_MADE = 0,    // an enqueue was made
    BQ_GOT = 1,     // a dequeue took the value
    BQ_NOTHING = 2, // a dequeue found no value
    BQ_REFUSED = 3, // an enqueue found the lane shut, which no call here does
};

typedef struct bq_answer {
    uint32_t kind;
    uint64_t value;
} bq_answer;

// Makes a lane with a pass for each of `callers` callers (1 to 17), for batches of at most `batch` operations (1 to 256),
// at most `room` queued values of each caller (1 to 256), and at most `allowance` operations of each (1 to 2^38). It takes
// all memory that the lane ever needs. The passes must be zero.
uint32_t bq_make(bq_pass *passes, size_t callers, uint32_t batch, uint32_t room, uint64_t allowance);

// Appends a value.
uint32_t bq_enqueue(bq_pass *pass, uint64_t value);

// Takes the first value and writes it to `value`, or answers BQ_EMPTY.
uint32_t bq_dequeue(bq_pass *pass, uint64_t *value);

// Makes operations as one batch, and writes the answer of each to its place among the answers, of which there are as many.
uint32_t bq_apply(bq_pass *pass, const bq_op *ops, size_t operations, bq_answer *answers, size_t answers_count);

// Tells the number of the pass's caller, from 0.
uint32_t bq_caller(bq_pass *pass, uint32_t *caller);

// Tells how many operations the pass's caller has made.
uint32_t bq_made(bq_pass *pass, uint64_t *operations);

// Joins the callers of another pass of the same lane to those of `pass`, which has then seen what each of them had seen.
// The other is zero then. Where either is no pass, both stay as they are. The two must be different passes of one lane,
// which isn't looked at. A pass that holds several callers can be gathered with others and closed: the calls that make
// operations or tell of them answer BQ_SEVERAL.
uint32_t bq_gather(bq_pass *pass, bq_pass *other);

// Gives a pass back, which is zero again then. The lane's memory is freed with its last pass.
uint32_t bq_close(bq_pass *pass);

#ifdef __cplusplus
}
#endif
#endif
