/* A heap that threads share: a lock, portions of many calls, views that read the heap at the same time, and a thread
 * that collects between portions.
 *
 * A thread has the heap for a portion: from pauseless_enter to pauseless_leave. In it any call of pauseless.h may be
 * made, with the number of the thread's own registers. pauseless_rest is a safepoint: if another thread waits, and the
 * portion has lasted long enough, others have the heap before it continues. Between portions a thread never delays a
 * collection. In a portion never wait for another thread, and don't enter again.
 *
 * The lock is the system's, and nothing here is proved: the calls of pauseless.h are. Link with -pthread. */
#ifndef PAUSELESS_SHARED_H
#define PAUSELESS_SHARED_H

#include <pthread.h>
#include <sched.h>
#include <stdatomic.h>
#include <time.h>

#include "pauseless.h"

/* A shared heap. It must not be moved while threads use it. */
typedef struct pauseless_shared {
    pauseless_heap *heap;
    uint32_t rests;          /* a portion lasts for at least this many rests, while others wait */
    atomic_uint wanted;      /* how many threads wait for the heap */
    pthread_mutex_t turn;    /* held while a thread waits for the heap, so that they have it in their order */
    pthread_mutex_t lock;    /* of the heap while views is 0, and of all fields below */
    pthread_cond_t closing, viewed; /* is_closed has changed; views is 0 again */
    uint32_t views;          /* how many threads read the heap */
    bool is_closed, has_begun, has_collector;
    pauseless_policy policy; /* of the collector: its words aren't used */
    uint32_t budget;
    pauseless_code failed;   /* how the collector's last part ended; read this and collections in a portion */
    uint64_t collections;    /* those that the collector's thread has ended */
    pthread_t collector;
} pauseless_shared;

/* A thread's portion. */
typedef struct pauseless_portion {
    pauseless_shared *shared;
    uint32_t rests;
} pauseless_portion;

/* Shares a heap that pauseless_new has made; some thousand calls make good portions. false if there is no lock. */
static inline bool pauseless_share(pauseless_shared *shared, pauseless_heap *heap, uint32_t rests) {
    *shared = (pauseless_shared){.heap = heap, .rests = rests, .failed = PAUSELESS_DONE};
    return pthread_mutex_init(&shared->turn, NULL) == 0 && pthread_mutex_init(&shared->lock, NULL) == 0 &&
           pthread_cond_init(&shared->closing, NULL) == 0 && pthread_cond_init(&shared->viewed, NULL) == 0;
}

/* Waits for the lock, and until at most `views` views are left. */
static inline void pauseless_wait(pauseless_shared *shared, uint32_t views) {
    atomic_fetch_add(&shared->wanted, 1);
    pthread_mutex_lock(&shared->turn);
    pthread_mutex_lock(&shared->lock);
    while (shared->views > views) pthread_cond_wait(&shared->viewed, &shared->lock);
    pthread_mutex_unlock(&shared->turn);
    atomic_fetch_sub(&shared->wanted, 1);
}

/* Yields to threads that wait for the heap, which this thread has released: until none waits, or up to 1,000 times. */
static inline void pauseless_give_way(pauseless_shared *shared) {
    for (int turn = 0; turn < 1000 && atomic_load(&shared->wanted) > 0; turn++) sched_yield();
}

/* Begins a view, never in a portion: threads read the heap at the same time, only by the calls pauseless_view_.. */
static inline void pauseless_begin_view(pauseless_shared *shared) {
    pauseless_wait(shared, UINT32_MAX);
    shared->views++;
    pthread_mutex_unlock(&shared->lock);
}

/* Ends a view: the places that it has read are no longer valid. */
static inline void pauseless_end_view(pauseless_shared *shared) {
    pthread_mutex_lock(&shared->lock);
    if (--shared->views == 0) pthread_cond_signal(&shared->viewed);
    pthread_mutex_unlock(&shared->lock);
}

/* Waits for the heap, and begins a portion. */
static inline pauseless_portion pauseless_enter(pauseless_shared *shared) {
    pauseless_wait(shared, 0);
    return (pauseless_portion){.shared = shared, .rests = 0};
}

/* Ends a portion. */
static inline void pauseless_leave(pauseless_portion *portion) { pthread_mutex_unlock(&portion->shared->lock); }

/* A safepoint. Objects may have moved then, and other threads may have changed them. */
static inline void pauseless_rest(pauseless_portion *portion) {
    if (portion->rests < portion->shared->rests) {
        portion->rests++;
    } else if (atomic_load(&portion->shared->wanted) > 0) {
        pauseless_leave(portion);
        pauseless_give_way(portion->shared);
        *portion = pauseless_enter(portion->shared);
    }
}

/* Does a part of a collection if one is due; the lock is held. Returns whether it was done and another one is due. */
static inline bool pauseless_collect_due(pauseless_shared *shared) {
    pauseless_counts counts;
    bool has_ended = true;
    if (pauseless_count(shared->heap, &counts) != PAUSELESS_DONE) return false;
    if (!shared->has_begun && counts.free > shared->policy.free) return false;
    shared->failed = pauseless_collect_some(shared->heap, shared->policy.percent, shared->budget, &has_ended);
    shared->has_begun = shared->failed != PAUSELESS_DONE || !has_ended;
    if (!shared->has_begun) shared->collections++;
    return shared->failed == PAUSELESS_DONE && !has_ended;
}

/* Runs the collector's thread. When nothing is due it sleeps for a millisecond. */
static inline void *pauseless_collects(void *argument) {
    pauseless_shared *shared = argument;
    for (pauseless_wait(shared, 0); !shared->is_closed; pauseless_wait(shared, 0)) {
        const bool is_due = pauseless_collect_due(shared);
        struct timespec until;
        timespec_get(&until, TIME_UTC);
        until.tv_nsec += 1000000;
        if (until.tv_nsec >= 1000000000) until.tv_sec++, until.tv_nsec -= 1000000000;
        if (!is_due) pthread_cond_timedwait(&shared->closing, &shared->lock, &until);
        pthread_mutex_unlock(&shared->lock);
        if (is_due) pauseless_give_way(shared);
    }
    pthread_mutex_unlock(&shared->lock);
    return NULL;
}

/* Starts a thread that collects between portions, in parts that scan up to budget objects, when at most policy->free
 * frames are free. false if the system can't start it. */
static inline bool pauseless_start_collector(pauseless_shared *shared, const pauseless_policy *policy,
                                             uint32_t budget) {
    shared->policy = *policy;
    shared->budget = budget;
    return shared->has_collector = pthread_create(&shared->collector, NULL, pauseless_collects, shared) == 0;
}

/* Ends the sharing of the heap, and the collector's thread. No thread may be in a portion. */
static inline void pauseless_unshare(pauseless_shared *shared) {
    pthread_mutex_lock(&shared->lock);
    shared->is_closed = true;
    pthread_cond_signal(&shared->closing);
    pthread_mutex_unlock(&shared->lock);
    if (shared->has_collector) pthread_join(shared->collector, NULL);
    pthread_cond_destroy(&shared->viewed);
    pthread_cond_destroy(&shared->closing);
    pthread_mutex_destroy(&shared->lock);
    pthread_mutex_destroy(&shared->turn);
}

#endif
