// No queue and no jobs: the atomic steps alone that the lanes make for `run 1 BATCH` on a job file, where the one hand has
// them for itself.
//
// usage: PROGRAM BATCH <JOBS    The file is as `gen` writes it: no blanks before a word, and none but one between two.
// It prints the steps, and the seconds of processor time that they took.
#define _GNU_SOURCE
#include "steps.h"
#include <stdio.h>
#include <stdlib.h>
#include <string.h>
#include <time.h>

// The shape of the lanes of a run with one hand, and how many rows for values that gives each caller.
enum { CALLERS = 2, MOST = 256, WAITING = CALLERS * (MOST + CALLERS + 1), ITEMS = MOST + 1 + WAITING, LANES = 16 };

// A lane that one caller uses. Row 0 is its first dummy, and those behind are the caller's. `row` are the rows of the values
// that are queued, from `first` on, around.
struct lane {
    struct table table;
    unsigned row[ITEMS + 1], first, queued;
    struct thread of;
};

static struct lane lanes[LANES];
static uint64_t steps;

static void make_lane(struct lane *lane) {
    lane->table.rows = calloc(ITEMS + 1, sizeof *lane->table.rows);
    if (!lane->table.rows) exit(1);
    for (unsigned k = 1; k <= ITEMS; k++) lane->table.rows[k].mark = MARKS;
    lane->of = (struct thread){&lane->table, CALLERS, 0, 0};
}

// Marks a row: as read or passed, and at last as free.
static void join(struct lane *lane, unsigned row, uint64_t marks) { atomic_fetch_or(&lane->table.rows[row].mark, marks); }

static void free_row(struct lane *lane, unsigned row) { join(lane, row, MARKS); }

// Looks at the marks from the first row on, takes the first that is free, and stores its value. 0 where none is free.
static unsigned take(struct lane *lane) {
    struct row *rows = lane->table.rows;
    unsigned row = 1;
    while (row <= ITEMS && rows[row].mark != MARKS) row++;
    steps += row;
    if (ITEMS < row) {
        steps--;
        return 0;
    }
    store(&rows[row].mark);
    store(&rows[row].link);
    store(&rows[row].value);
    steps += 3;
    return row;
}

// The row of the value at this place of the queue.
static unsigned row_at(const struct lane *lane, unsigned place) { return lane->row[(lane->first + place) % (ITEMS + 1)]; }

// Marks the old dummy and the rows of so many first values, and frees all of them but the last, which is the new dummy.
static void end_call(struct lane *lane, unsigned got) {
    if (!got) return;
    for (unsigned k = 0; k <= got; k++) join(lane, k ? row_at(lane, k - 1) : lane->of.dummy, k < got ? 3 : 1);
    scan(&lane->of);
    for (unsigned k = 0; k < got; k++) {
        unsigned row = k ? row_at(lane, k - 1) : lane->of.dummy;
        // The first dummy is no row of the caller's: it is never free.
        if (row) free_row(lane, row);
    }
    steps += 2 * got + 1 + CALLERS;
    lane->of.dummy = row_at(lane, got - 1);
    lane->first = (lane->first + got) % (ITEMS + 1);
    lane->queued -= got;
}

static void dequeue(struct lane *lane) {
    struct table *table = &lane->table;
    look_behind(&lane->of);
    steps += 5;
    if (lane->queued) {
        load(&lane->of, &table->tail);
        load(&lane->of, &table->rows[row_at(lane, 0)].value);
        exchange(&lane->of, &table->head);
        steps += 3;
    }
    store(&table->hazards[0].node);
    end_call(lane, lane->queued ? 1 : 0);
}

// The links and values of so many first values.
static void read_values(struct lane *lane, unsigned got) {
    for (unsigned k = 0; k < got; k++) {
        unsigned before = k ? row_at(lane, k - 1) : lane->of.dummy;
        load(&lane->of, &lane->table.rows[before].link);
        load(&lane->of, &lane->table.rows[row_at(lane, k)].value);
    }
    steps += 2 * got;
}

// A batch of dequeues alone that the queue has enough values for.
static void dequeue_many(struct lane *lane, unsigned got) {
    struct table *table = &lane->table;
    look_behind(&lane->of);
    read_values(lane, got);
    load(&lane->of, &table->tail);
    exchange(&lane->of, &table->head);
    store(&table->hazards[0].node);
    steps += 6;
    end_call(lane, got);
}

// Gives back rows that were taken and not linked.
static void lose(struct lane *lane, const unsigned *taken, unsigned count) {
    for (unsigned k = 0; k < count; k++) join(lane, taken[k], 3);
    scan(&lane->of);
    for (unsigned k = 0; k < count; k++) free_row(lane, taken[k]);
    steps += 2 * count + CALLERS;
}

// A unit: a dequeue, so many enqueues, and half as many dequeues, as one batch. Whether there was room for it.
static int put_unit(struct lane *lane, unsigned count) {
    struct table *table = &lane->table;
    unsigned taken[MOST];
    for (unsigned k = 0; k < count; k++) {
        taken[k] = take(lane);
        if (!taken[k]) {
            if (k) lose(lane, taken, k);
            return 0;
        }
    }
    for (unsigned k = 1; k < count; k++) store(&table->rows[taken[k - 1]].link);
    unsigned queued = lane->queued, got = (queued ? 1 : 0) + count / 2;
    // The help walks to the new head, from the old one, or from the old tail where that lies before it.
    unsigned walked = got < queued ? got : got - queued;
    // The tail names the last row of the list.
    unsigned dummy = lane->of.dummy;
    lane->of.dummy = queued ? row_at(lane, queued - 1) : dummy;
    install(&lane->of);
    help_tail(&lane->of);
    lane->of.dummy = dummy;
    for (unsigned k = 0; k < count; k++) lane->row[(lane->first + lane->queued++) % (ITEMS + 1)] = taken[k];
    for (unsigned k = got - walked; k < got; k++) load(&lane->of, &table->rows[k ? row_at(lane, k - 1) : dummy].link);
    exchange(&lane->of, &table->head);
    load(&lane->of, &table->fields[1]);
    read_values(lane, got);
    let_go(&lane->of);
    // The chain, the install with a hazard word of each other caller, the help, OldTail, and the two hazard words.
    steps += count - 1 + 11 + CALLERS + 21 + walked + 1 + 2;
    end_call(lane, got);
    return 1;
}

static void put(struct lane *lane, unsigned count) {
    while (!put_unit(lane, count)) dequeue(lane);
}

struct unit {
    unsigned char lane, count;
};

// The units of the file.
static struct unit *read_units(size_t *count) {
    size_t room = 1024;
    struct unit *units = malloc(room * sizeof *units);
    char *line = 0;
    size_t size = 0;
    unsigned lane;
    *count = 0;
    while (units && getline(&line, &size, stdin) > 0) {
        if (*count == room) units = realloc(units, (room *= 2) * sizeof *units);
        if (!units) break;
        if (sscanf(line, "job %u", &lane) == 1 && lane < LANES) units[(*count)++] = (struct unit){lane, 1};
        if (sscanf(line, "block %u", &lane) == 1 && lane < LANES) units[*count] = (struct unit){lane, 0};
        if (!strncmp(line, "put ", 4)) units[*count].count++;
        if (!strncmp(line, "end", 3) && units[*count].count) ++*count;
    }
    free(line);
    if (!units) exit(1);
    return units;
}

static double now(void) {
    struct timespec at;
    clock_gettime(CLOCK_PROCESS_CPUTIME_ID, &at);
    return at.tv_sec + at.tv_nsec / 1e9;
}

int main(int argc, char **argv) {
    unsigned batch = argc == 2 ? strtoul(argv[1], 0, 10) : 0;
    if (batch < 1 || batch > MOST) return 2;
    size_t count;
    struct unit *units = read_units(&count);
    for (unsigned k = 0; k < LANES; k++) make_lane(&lanes[k]);
    double from = now();
    for (size_t k = 0; k < count; k++) put(&lanes[units[k].lane], units[k].count);
    // The last batch on each lane finds too few values; its steps are left out.
    uint64_t sum = 0;
    for (unsigned k = 0; k < LANES; k++) {
        while (batch <= lanes[k].queued) dequeue_many(&lanes[k], batch);
        sum += lanes[k].of.sum;
    }
    printf("%llu steps, %.3f s\n", (unsigned long long)steps, now() - from);
    return sum != 0;
}
