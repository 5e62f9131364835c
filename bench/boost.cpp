// boost::lockfree::queue, whose nodes it keeps for itself.
#include "single.h"
#include <boost/lockfree/queue.hpp>

static boost::lockfree::queue<uint64_t> *queue;

static void put(struct share *share, uint64_t value) {
    if (!queue->push(value)) share->failed = 1;
}

static bool get(struct share *, uint64_t *value) { return queue->pop(*value); }

SINGLE_WORK(put, get)

extern "C" {
int queue_make(unsigned, unsigned) {
    queue = new boost::lockfree::queue<uint64_t>(4096);
    return 0;
}

void queue_work(struct share *share) { singly(share); }

void queue_end(void) {}
}
