/* A library that breaks GCC's OpenMP runtime on purpose, to see that the audit notices: preloaded behind the recorder, it
   stands between that and the runtime, and breaks what TASKAUDIT_BREAK names, with commas between. The recorder tells what
   it tells of the right runtime.

   taskwait, taskgroup, barrier    wait for no task; the members of a team still meet at a barrier
   loop_end                        the same at the end of a loop or of sections
   brief_taskwait, brief_barrier   wait for a while, and for no task
   depend                          tasks have no dependences
   one_depend                      of a list of several dependences the first is dropped
   taskwait_depend                 a taskwait with dependences waits for no task
   early_detach                    a detached task is complete where its body ends

   The barrier at a region's end is inside the runtime, where nothing can stand in front of it. */
#define _GNU_SOURCE
#include "breaking.h"

#include <dlfcn.h>
#include <pthread.h>
#include <stdbool.h>
#include <stdint.h>
#include <stdlib.h>
#include <string.h>
#include <unistd.h>

/* Flags of GOMP_task and GOMP_taskloop. */
enum { HAS_LIST = 8, IS_DETACHED = 0x2000, LOOP_NOGROUP = 0x800 };
/* What is before the addresses in the two layouts of a list: where its first word is 0, and where it is not. */
enum { WORDS_OF_OLD = 2, WORDS_OF_NEW = 5, MOST_WORDS = 64, BRIEF_MICROSECONDS = 100, MOST_LEVELS = 8 };

typedef void function(void *);
typedef void copy_function(void *, void *);

int omp_get_level(void);
int omp_get_num_threads(void);
int omp_get_ancestor_thread_num(int level);

/* The real function of this name. */
#define REAL(name) ((__typeof__(&name))dlsym(RTLD_NEXT, #name))

/* Waits */

void GOMP_taskwait(void) {
    if (breaks("brief_taskwait")) usleep(BRIEF_MICROSECONDS);
    else if (!breaks("taskwait")) REAL(GOMP_taskwait)();
}

void GOMP_taskgroup_start(void) {
    if (!breaks("taskgroup")) REAL(GOMP_taskgroup_start)();
}

void GOMP_taskgroup_end(void) {
    if (!breaks("taskgroup")) REAL(GOMP_taskgroup_end)();
}

/* Where the members of a team meet. Among the teams of one initial thread, the numbers of its members' ancestors in their
   teams tell which one it is. */
static struct meeting {
    int level, ancestors[MOST_LEVELS];
    struct arrivals arrivals;
} meetings[1 << 10];

static struct meeting *meeting_of(const struct meeting *key) {
    struct meeting *at = meetings, *end = meetings + sizeof meetings / sizeof *meetings;
    while (at < end && at->level && (at->level != key->level || memcmp(at->ancestors, key->ancestors, sizeof key->ancestors)))
        at++;
    if (at == end) abort();
    if (!at->level) *at = *key;
    return at;
}

/* Waits until all members of the team are here, and for no task. */
static void meet(void) {
    struct meeting key = {.level = omp_get_level()};
    int size = omp_get_num_threads();
    if (size == 1) return;
    for (int level = 1; level < key.level && level < MOST_LEVELS; level++)
        key.ancestors[level] = omp_get_ancestor_thread_num(level);
    pthread_mutex_lock(&meeting);
    await_all(&meeting_of(&key)->arrivals, size);
    pthread_mutex_unlock(&meeting);
}

void GOMP_barrier(void) {
    if (breaks("brief_barrier")) usleep(BRIEF_MICROSECONDS);
    if (breaks("barrier") || breaks("brief_barrier")) meet();
    else REAL(GOMP_barrier)();
}

/* In a region that may be cancelled, but is not. */
bool GOMP_barrier_cancel(void) {
    if (!breaks("barrier")) return REAL(GOMP_barrier_cancel)();
    meet();
    return false;
}

void GOMP_loop_end_nowait(void);
void GOMP_sections_end_nowait(void);

/* The member leaves the loop, as at the end of one without a barrier, and then meets the others. */
#define ENDS_SHARED_WORK(name)                \
    void name(void) {                         \
        if (!breaks("loop_end")) {            \
            REAL(name)();                     \
            return;                           \
        }                                     \
        REAL(name##_nowait)();                \
        meet();                               \
    }

ENDS_SHARED_WORK(GOMP_loop_end)
ENDS_SHARED_WORK(GOMP_sections_end)

/* Dependences */

/* Copies the list without its first address. It has two layouts: its count, how many are `out`, and the addresses, these
   first; or 0, its count, how many are out, mutexinoutset and in, the addresses in that order, and behind them depend
   objects. Returns whether it has another address. */
static bool drop_first(void **to, void **from) {
    bool is_old = from[0];
    size_t words = is_old ? WORDS_OF_OLD : WORDS_OF_NEW, count = (size_t)from[is_old ? 0 : 1], at = is_old ? 1 : 2;
    if (count < 2 || words + count > MOST_WORDS) return false;
    memcpy(to, from, words * sizeof *to);
    memcpy(to + words, from + words + 1, (count - 1) * sizeof *to);
    to[is_old ? 0 : 1] = (void *)(count - 1);
    while (at < words && !to[at]) at++;
    if (at < words) to[at] = (void *)((size_t)to[at] - 1);
    return true;
}

void GOMP_taskwait_depend(void **list) {
    if (!breaks("taskwait_depend")) REAL(GOMP_taskwait_depend)(list);
}

/* Detached tasks */

/* The event of a detached task that the runtime takes for one that is not. Nothing waits for it. */
static void *made_event(void **detach, void *data) {
    void **event = malloc(sizeof *event);
    if (!event) abort();
    *detach = event;
    /* the runtime gives it to the task there too */
    if (data) *(void **)data = event;
    return event;
}

void omp_fulfill_event(void *event) {
    if (!breaks("early_detach")) REAL(omp_fulfill_event)(event);
}

/* Explicit tasks */

void GOMP_task(function *call, void *data, copy_function *copy, long size, long align, bool is_deferred, unsigned flags,
               void **list, int priority, void *detach) {
    void *dropped[MOST_WORDS];
    if (flags & HAS_LIST && breaks("depend")) flags &= ~(unsigned)HAS_LIST;
    if (flags & HAS_LIST && breaks("one_depend") && drop_first(dropped, list)) list = dropped;
    if (flags & IS_DETACHED && breaks("early_detach")) {
        flags &= ~(unsigned)IS_DETACHED;
        made_event(detach, data);
    }
    REAL(GOMP_task)(call, data, copy, size, align, is_deferred, flags, list, priority, detach);
}

#define CREATES_LOOP(name, type)                                                                                     \
    void name(function *call, void *data, copy_function *copy, long size, long align, unsigned flags,                \
              unsigned long count, int priority, type start, type end, type step) {                                  \
        if (breaks("taskgroup")) flags |= LOOP_NOGROUP;                                                              \
        REAL(name)(call, data, copy, size, align, flags, count, priority, start, end, step);                         \
    }

CREATES_LOOP(GOMP_taskloop, long)
CREATES_LOOP(GOMP_taskloop_ull, unsigned long long)
