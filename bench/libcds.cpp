// The queue of Michael and Scott with hazard pointers, of libcds.
#include "single.h"
#include <cds/container/msqueue.h>
#include <cds/gc/hp.h>
#include <cds/init.h>
#include <cds/threading/model.h>

using Queue = cds::container::MSQueue<cds::gc::HP, uint64_t>;

static cds::gc::HP *hazards;
static Queue *queue;

static void put(struct share *share, uint64_t value) {
    if (!queue->enqueue(value)) share->failed = 1;
}

static bool get(struct share *, uint64_t *value) { return queue->dequeue(*value); }

SINGLE_WORK(put, get)

extern "C" {
int queue_make(unsigned, unsigned) {
    cds::Initialize();
    hazards = new cds::gc::HP();
    queue = new Queue();
    return 0;
}

void queue_work(struct share *share) {
    cds::threading::Manager::attachThread();
    singly(share);
    cds::threading::Manager::detachThread();
}

void queue_end(void) {}
}
