// No queue: the atomic steps that the lane makes for a command while nobody else is there. What the lane takes beyond this is
// its own work between the steps.
//
// The queue is empty before each command and after it, as in the other programs, and callers that are there too have
// nothing named. All marks are set and stay so.
#include "bench.h"
#include "steps.h"
#include <stdlib.h>

enum { MOST_BATCH = 256, ROWS = MOST_BATCH / 2 + 1 };

static struct table *tables[MOST_CALLERS];
static unsigned sharers;

int queue_make(unsigned callers, unsigned batch) {
    (void)batch;
    sharers = callers;
    for (unsigned k = 0; k < callers; k++) {
        tables[k] = calloc(1, sizeof *tables[k]);
        if (!tables[k]) return 1;
        tables[k]->rows = calloc(ROWS, sizeof *tables[k]->rows);
        if (!tables[k]->rows) return 1;
        for (unsigned row = 0; row < ROWS; row++) tables[k]->rows[row].mark = MARKS;
    }
    return 0;
}

void queue_end(void) {}

static void join(struct thread *of, struct row *row) {
    if (atomic_fetch_or(&row->mark, MARKS) != MARKS) of->sum++;
}

// Frees the rows from this one on.
static void free_rows(struct thread *of, unsigned rows) {
    scan(of);
    for (unsigned k = 0; k < rows; k++) join(of, &of->table->rows[k]);
}

// Looks at the marks from the first row on, up to the one that is free, and takes that.
static void take(struct thread *of, unsigned free) {
    struct table *table = of->table;
    uint64_t marks = MARKS;
    for (unsigned k = 0; k <= free; k++) marks &= table->rows[k].mark;
    if (marks != MARKS) of->sum++;
    table->rows[free].mark = MARKS;
    store(&table->rows[free].link);
    store(&table->rows[free].value);
}

static void enqueue(struct thread *of, unsigned free) {
    struct table *table = of->table;
    take(of, free);
    load(of, &table->tail);
    guard(of, &table->hazards[0].node, &table->tail);
    load(of, &table->rows[of->dummy].link);
    exchange(of, &table->rows[of->dummy].link);
    exchange(of, &table->tail);
    store(&table->hazards[0].node);
}

static void dequeue(struct thread *of, unsigned row) {
    struct table *table = of->table;
    look_behind(of);
    load(of, &table->tail);
    load(of, &table->rows[row].value);
    exchange(of, &table->head);
    join(of, &table->rows[of->dummy]);
    join(of, &table->rows[row]);
    store(&table->hazards[0].node);
    free_rows(of, 1);
}

// A batch whose halves enqueue and dequeue in turn.
static void batch(struct thread *of, unsigned half) {
    struct table *table = of->table;
    for (unsigned k = 0; k < half; k++) take(of, k == of->dummy ? k + 1 : k);
    for (unsigned k = 1; k < half; k++) store(&table->rows[k - 1].link);
    install(of);
    help_tail(of);
    for (unsigned k = 0; k < half; k++) load(of, &table->rows[k].link);
    exchange(of, &table->head);
    load(of, &table->fields[1]);
    for (unsigned k = 0; k < half; k++) {
        load(of, &table->rows[k].link);
        load(of, &table->rows[k].value);
    }
    for (unsigned k = 0; k <= half; k++) join(of, &table->rows[k]);
    let_go(of);
    free_rows(of, half);
}

// The row of a caller's last enqueue is the dummy when its next command begins: the last of its first `rows` rows, or, where
// that was the dummy then, the one behind.
static void move_dummy(struct thread *of, unsigned rows) { of->dummy = of->dummy == rows - 1 ? rows : rows - 1; }

void queue_work(struct share *share) {
    unsigned half = share->batch / 2, rows = half ? half : 1;
    struct thread of = {tables[share->caller], sharers, rows, 0};
    for (uint64_t k = 0; k < share->times; k++) {
        if (half) {
            batch(&of, half);
        } else {
            unsigned row = of.dummy ? 0 : 1;
            enqueue(&of, row);
            dequeue(&of, row);
        }
        move_dummy(&of, rows);
    }
    // Each word was as it had to be.
    if (of.sum) share->failed = 1;
}
