// The atomic steps that the lane makes while nobody else is there, each of its kind, on a table of the thread's own.
//
// All words are 0 and stay so, but for the marks: those of a free row are all set, those of a row in use are not.
#ifndef STEPS_H
#define STEPS_H
#include <stdatomic.h>
#include <stdint.h>

enum { MOST_CALLERS = 17, FIELDS = 10, MARKS = 7 };

typedef _Atomic uint64_t word;

struct row {
    word link, value, mark;
};

struct hazards {
    word node, ann;
};

struct table {
    word head, tail;
    struct hazards hazards[MOST_CALLERS];
    word fields[FIELDS];
    struct row *rows;
};

// The last row of the list, which is no free one. `sum` gathers what was loaded: where each word was as it had to be, it is 0.
struct thread {
    struct table *table;
    unsigned callers;
    unsigned dummy;
    uint64_t sum;
};

static inline void load(struct thread *of, word *at) { of->sum += *at; }

static inline void store(word *at) { *at = 0; }

static inline void exchange(struct thread *of, word *at) {
    uint64_t found = 0;
    if (!atomic_compare_exchange_strong(at, &found, 0)) of->sum++;
}

// Names what it found there, and loads the word again.
static inline void guard(struct thread *of, word *hazard, word *source) {
    store(hazard);
    load(of, source);
}

// Loads the hazard words of all callers, before it frees rows.
static inline void scan(struct thread *of) {
    for (unsigned k = 0; k < of->callers; k++) load(of, &of->table->hazards[k].node);
}

// From the load of the head to that of the link behind the dummy.
static inline void look_behind(struct thread *of) {
    struct table *table = of->table;
    load(of, &table->head);
    guard(of, &table->hazards[0].node, &table->head);
    load(of, &table->rows[of->dummy].link);
}

// The choice of an announcement, its fields and its install.
static inline void install(struct thread *of) {
    struct table *table = of->table;
    for (unsigned k = 1; k < of->callers; k++) load(of, &table->hazards[k].ann);
    for (unsigned k = 1; k < FIELDS; k++) store(&table->fields[k]);
    load(of, &table->head);
    store(&table->fields[0]);
    exchange(of, &table->head);
}

// The tail, a guard of it, OldTail and the link of the tail.
static inline void look_at_tail(struct thread *of) {
    struct table *table = of->table;
    load(of, &table->tail);
    guard(of, &table->hazards[0].node, &table->tail);
    load(of, &table->fields[1]);
    load(of, &table->rows[of->dummy].link);
}

// From the guard of the announcement to the move of the tail.
static inline void help_tail(struct thread *of) {
    struct table *table = of->table;
    guard(of, &table->hazards[0].ann, &table->head);
    load(of, &table->fields[0]);
    load(of, &table->fields[2]);
    load(of, &table->fields[3]);
    load(of, &table->fields[4]);
    look_at_tail(of);
    exchange(of, &table->rows[of->dummy].link);
    look_at_tail(of);
    exchange(of, &table->fields[1]);
    load(of, &table->tail);
    exchange(of, &table->tail);
}

// The hazard words at the end of a batch.
static inline void let_go(struct thread *of) {
    store(&of->table->hazards[0].node);
    store(&of->table->hazards[0].ann);
}
#endif
