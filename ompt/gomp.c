/* The recorder for programs that gcc compiled, under their own runtime, libgomp, which has no OMPT. Loaded before it, this
   library stands in front of the functions that compiled code calls, calls the real ones, and tells the recorder what
   OMPT would tell. docs/RECORDING.md of taskaudit says what is seen so, and what is not. */
#define _GNU_SOURCE
#include "callbacks.h"
#include "recorder.h"

#include <dlfcn.h>
#include <link.h>
#include <pthread.h>
#include <stdlib.h>
#include <string.h>

/* The real function of this name, which is looked up once. */
#define REAL(name)                                                                            \
    ({                                                                                        \
        static void *_Atomic found;                                                           \
        void *function = atomic_load_explicit(&found, memory_order_relaxed);                  \
        if (!function) atomic_store(&found, function = find_real(#name));                     \
        (__typeof__(&name))function;                                                          \
    })
/* Where the program calls this library. */
#define CODE place(__builtin_return_address(0))

/* Flags of GOMP_task and GOMP_taskloop, by the bits that gcc passes. */
enum {
    IS_UNTIED = 1, IS_FINAL = 2, IS_MERGEABLE = 4, HAS_LIST = 8, IS_DETACHED = 0x2000,
    LOOP_IF = 0x400, LOOP_NOGROUP = 0x800, LOOP_REDUCTION = 0x1000, TARGET_NOWAIT = 1
};
/* Kinds of regions that can be cancelled, as gcc passes them. */
enum { CANCEL_PARALLEL = 1, CANCEL_LOOP = 2, CANCEL_SECTIONS = 4, CANCEL_TASKGROUP = 8 };
/* Of a parallel region that is a league of teams; older headers lack it. */
enum { PARALLEL_LEAGUE = 0x40000000 };

#define EXPORTED __attribute__((visibility("default")))

typedef void function(void *);

int omp_get_num_threads(void);
int omp_get_thread_num(void);
int omp_get_num_teams(void);
int omp_get_team_num(void);
int omp_get_cancellation(void);

/* A plugin that is loaded later may have a libgomp that others do not see. */
static void *find_real(const char *name) {
    void *found = dlsym(RTLD_NEXT, name);
    if (found) return found;
    void *library = dlopen("libgomp.so.1", RTLD_LAZY | RTLD_NOLOAD);
    return library ? dlsym(library, name) : NULL;
}

/* Where code is */

static uintptr_t own_begin, own_end;

/* Finds the part of this library that has this function. */
static int find_own(struct dl_phdr_info *info, size_t size, void *unused) {
    (void)size, (void)unused;
    for (int i = 0; i < info->dlpi_phnum; i++) {
        const ElfW(Phdr) *part = &info->dlpi_phdr[i];
        uintptr_t begin = info->dlpi_addr + part->p_vaddr, end = begin + part->p_memsz;
        if (part->p_type != PT_LOAD || (uintptr_t)find_own < begin || (uintptr_t)find_own >= end) continue;
        own_begin = begin;
        own_end = end;
        return 1;
    }
    return 0;
}

/* Returns the address, where it is in the program: a call in tail position returns into this library. */
static const void *place(const void *code) {
    return (uintptr_t)code < own_begin || (uintptr_t)code >= own_end ? code : NULL;
}

/* Threads of libgomp end and are made as teams shrink and grow. */

/* Whether a thread is in a team, not as its primary thread; and whether it has ended. */
enum { ALONE, IN_TEAM, ENDED };
static pthread_key_t ending_thread;

/* The thread has ended, and its team too. */
static void finish_thread(struct thread *thread) {
    struct thread *own = act_as(thread);
    if (thread->current && thread->current == thread->innermost) {
        ompt_data_t task = {.ptr = thread->current};
        on_implicit_task(ompt_scope_end, NULL, &task, 1, 1, ompt_task_initial);
    }
    on_thread_end(NULL);
    act_as(own == thread ? NULL : own);
    atomic_store(&thread->standing, ALONE);
    if (!thread->current) release_thread(thread);
}

/* A thread may end before the primary thread of its team has told that its last barrier has: then that tells the rest. */
static void on_thread_ended(void *thread) {
    if (atomic_exchange(&((struct thread *)thread)->standing, ENDED) != IN_TEAM) finish_thread(thread);
}

static struct thread *join_team(struct thread *thread, bool is_worker) {
    if (!thread || !is_worker) return thread;
    atomic_store(&thread->standing, IN_TEAM);
    return thread;
}

static void leave_team(struct thread *thread) {
    int was = IN_TEAM;
    if (!atomic_compare_exchange_strong(&thread->standing, &was, ALONE)) finish_thread(thread);
}

/* Begin and end of recording */

static void end(void) {
    find_modules();
    end_process("end");
}

/* The first call of the runtime begins the recording, so a process that uses no OpenMP has no file. */
static void begin(void) {
    dl_iterate_phdr(find_own, NULL);
    pthread_key_create(&ending_thread, on_thread_ended);
    if (!begin_file()) {
        end_recording();
        return;
    }
    watch_ending();
    atexit(end);
}

static pthread_once_t once = PTHREAD_ONCE_INIT;
static _Atomic bool has_begun;
/* Whether the end of this thread is watched. */
static __thread bool is_watched __attribute__((tls_model("initial-exec")));

static __attribute__((noinline)) void begin_once(void) {
    pthread_once(&once, begin);
    atomic_store(&has_begun, true);
}

/* Returns this thread, or NULL where recording is over. */
static struct thread *recorded_thread(void) {
    if (!atomic_load_explicit(&has_begun, memory_order_relaxed)) begin_once();
    struct thread *thread = this_thread();
    if (thread && !is_watched) is_watched = pthread_setspecific(ending_thread, thread) == 0;
    return thread;
}

/* Returns the task that runs here. A thread that runs none begins its initial task. */
static ompt_data_t running_task(void) {
    struct thread *thread = recorded_thread();
    ompt_data_t task = {0};
    if (!thread) return task;
    if (!thread->current) {
        on_thread_begin(ompt_thread_initial, NULL);
        on_implicit_task(ompt_scope_begin, NULL, &task, 1, 1, ompt_task_initial);
    }
    task.ptr = thread->current;
    return task;
}

/* Regions that wait */

static void tell(ompt_sync_region_t kind, ompt_scope_endpoint_t endpoint, const void *code) {
    ompt_data_t task = running_task();
    if (task.ptr) on_sync_region(kind, endpoint, NULL, &task, code);
}

#define WAITS(name, kind)                                          \
    EXPORTED void name(void) {                                     \
        const void *code = CODE;                                   \
        bool is_recorded = recorded_thread();                      \
        if (is_recorded) tell(kind, ompt_scope_begin, code);       \
        REAL(name)();                                              \
        if (is_recorded) tell(kind, ompt_scope_end, code);         \
    }

WAITS(GOMP_taskwait, ompt_sync_region_taskwait)
WAITS(GOMP_barrier, ompt_sync_region_barrier_explicit)
WAITS(GOMP_loop_end, ompt_sync_region_barrier_implicit_workshare)
WAITS(GOMP_sections_end, ompt_sync_region_barrier_implicit_workshare)

EXPORTED void GOMP_taskgroup_start(void) {
    tell(ompt_sync_region_taskgroup, ompt_scope_begin, CODE);
    REAL(GOMP_taskgroup_start)();
}

EXPORTED void GOMP_taskgroup_end(void) {
    const void *code = CODE;
    REAL(GOMP_taskgroup_end)();
    tell(ompt_sync_region_taskgroup, ompt_scope_end, code);
}

/* One thread runs the block of a `single copyprivate`, and gets NULL; the others wait for it here. */
EXPORTED void *GOMP_single_copy_start(void) {
    const void *code = CODE;
    void *data = REAL(GOMP_single_copy_start)();
    if (data) tell(ompt_sync_region_barrier_implicit_workshare, ompt_scope_beginend, code);
    return data;
}

EXPORTED void GOMP_single_copy_end(void *data) {
    const void *code = CODE;
    tell(ompt_sync_region_barrier_implicit_workshare, ompt_scope_begin, code);
    REAL(GOMP_single_copy_end)(data);
    tell(ompt_sync_region_barrier_implicit_workshare, ompt_scope_end, code);
}

EXPORTED void GOMP_workshare_task_reduction_unregister(bool is_cancelled) {
    const void *code = CODE;
    if (!is_cancelled) tell(ompt_sync_region_barrier_implicit_workshare, ompt_scope_begin, code);
    REAL(GOMP_workshare_task_reduction_unregister)(is_cancelled);
    if (!is_cancelled) tell(ompt_sync_region_barrier_implicit_workshare, ompt_scope_end, code);
}

/* Parallel regions */

/* A parallel region, in the place of the data that the program gives to its function. */
struct region {
    void *reductions;           /* libgomp reads the first word of the data */
    function *call;
    void *data;
    ompt_data_t id;
    unsigned size;
    _Atomic unsigned met;       /* at how many of the barriers that may be cancelled all members have met */
    struct thread *members[MAX_THREADS];
};

/* The region of which this thread is a member, and to how many of these barriers it has come. */
struct member {
    struct region *region;
    unsigned barriers;
};
static __thread struct member own_member __attribute__((tls_model("initial-exec")));

static void run_member(void *it) {
    struct region *region = it;
    struct member outer = own_member;
    own_member = (struct member){.region = region};
    unsigned size = (unsigned)REAL(omp_get_num_threads)(), index = (unsigned)REAL(omp_get_thread_num)();
    struct thread *thread = recorded_thread();
    ompt_data_t task = {0};
    if (thread && atomic_load(&thread->count) == 0) on_thread_begin(ompt_thread_worker, NULL);
    on_implicit_task(ompt_scope_begin, &region->id, &task, size, index, ompt_task_implicit);
    if (index == 0) region->size = size;
    if (index < MAX_THREADS) region->members[index] = join_team(thread, index != 0);
    region->call(region->data);
    on_sync_region(ompt_sync_region_barrier_implicit_parallel, ompt_scope_begin, &region->id, &task, NULL);
    own_member = outer;
}

static void begin_region(struct region *region, unsigned threads, int flags, const void *code) {
    ompt_data_t task = running_task();
    on_parallel_begin(&task, NULL, &region->id, threads, flags, code);
}

/* All members have met at the region's end, and none of them does anything before its next region: so this thread, the
   primary one, tells for all that the last barrier has ended. */
static void end_region(struct region *region, const void *code) {
    struct thread *own = recorded_thread();
    for (unsigned index = 0; own && index < region->size && index < MAX_THREADS; index++) {
        struct thread *member = region->members[index];
        if (!member || !member->innermost) continue;
        act_as(member);
        member->is_held = index != 0;
        ompt_data_t task = {.ptr = member->innermost};
        on_sync_region(ompt_sync_region_barrier_implicit_parallel, ompt_scope_end, NULL, &task, NULL);
        on_implicit_task(ompt_scope_end, NULL, &task, 0, index, ompt_task_implicit);
        act_as(own);
        member->is_held = false;
        if (index) leave_team(member);
    }
    ompt_data_t task = running_task();
    on_parallel_end(&region->id, &task, 0, code);
}

/* The functions that run a parallel region, which differ in what stands behind the number of threads. Where recording is
   over, the program's own calls go on to the runtime as they are. */
#define RUNS_REGION(name, types, words)                                                                \
    EXPORTED void name(function *call, void *data, unsigned threads, UNPACK types) {                   \
        if (!recorded_thread()) {                                                                      \
            REAL(name)(call, data, threads, UNPACK words);                                             \
            return;                                                                                    \
        }                                                                                              \
        struct region region = {.call = call, .data = data};                                           \
        const void *code = CODE;                                                                       \
        begin_region(&region, threads, 0, code);                                                       \
        REAL(name)(run_member, &region, threads, UNPACK words);                                        \
        end_region(&region, code);                                                                     \
    }
#define UNPACK(...) __VA_ARGS__
#define LOOP_TYPES (long start, long end, long step, long chunk, unsigned flags)
#define LOOP_WORDS (start, end, step, chunk, flags)

RUNS_REGION(GOMP_parallel, (unsigned flags), (flags))
RUNS_REGION(GOMP_parallel_sections, (unsigned count, unsigned flags), (count, flags))
RUNS_REGION(GOMP_parallel_loop_static, LOOP_TYPES, LOOP_WORDS)
RUNS_REGION(GOMP_parallel_loop_dynamic, LOOP_TYPES, LOOP_WORDS)
RUNS_REGION(GOMP_parallel_loop_guided, LOOP_TYPES, LOOP_WORDS)
RUNS_REGION(GOMP_parallel_loop_nonmonotonic_dynamic, LOOP_TYPES, LOOP_WORDS)
RUNS_REGION(GOMP_parallel_loop_nonmonotonic_guided, LOOP_TYPES, LOOP_WORDS)
RUNS_REGION(GOMP_parallel_loop_runtime, (long start, long end, long step, unsigned flags), (start, end, step, flags))
RUNS_REGION(GOMP_parallel_loop_nonmonotonic_runtime, (long start, long end, long step, unsigned flags),
            (start, end, step, flags))
RUNS_REGION(GOMP_parallel_loop_maybe_nonmonotonic_runtime, (long start, long end, long step, unsigned flags),
            (start, end, step, flags))

EXPORTED unsigned GOMP_parallel_reductions(function *call, void *data, unsigned threads, unsigned flags) {
    if (!recorded_thread()) return REAL(GOMP_parallel_reductions)(call, data, threads, flags);
    struct region region = {.reductions = *(void **)data, .call = call, .data = data};
    const void *code = CODE;
    begin_region(&region, threads, 0, code);
    unsigned size = REAL(GOMP_parallel_reductions)(run_member, &region, threads, flags);
    end_region(&region, code);
    return size;
}

/* Whether all members met at the barrier that this thread leaves. Where the region is cancelled none waits there any more,
   and some do not come. But a member that left it before may have been the one that cancelled, and said that they met. */
static bool have_met(bool is_cancelled) {
    struct region *region = own_member.region;
    if (!region) return !is_cancelled;
    unsigned number = ++own_member.barriers, met = atomic_load(&region->met);
    if (is_cancelled) return met >= number;
    while (met < number && !atomic_compare_exchange_weak(&region->met, &met, number)) continue;
    return true;
}

/* Only behind such a barrier is it known whether it was one, so its begin and its end are one record. */
#define WAITS_OR_IS_CANCELLED(name, kind)                                             \
    EXPORTED bool name(void) {                                                        \
        const void *code = CODE;                                                      \
        struct thread *thread = recorded_thread();                                    \
        if (thread) shake(thread, BEFORE_WAIT);                                       \
        bool is_cancelled = REAL(name)();                                             \
        if (thread && have_met(is_cancelled)) tell(kind, ompt_scope_beginend, code);  \
        return is_cancelled;                                                          \
    }

WAITS_OR_IS_CANCELLED(GOMP_barrier_cancel, ompt_sync_region_barrier_explicit)
WAITS_OR_IS_CANCELLED(GOMP_loop_end_cancel, ompt_sync_region_barrier_implicit_workshare)
WAITS_OR_IS_CANCELLED(GOMP_sections_end_cancel, ompt_sync_region_barrier_implicit_workshare)

/* Each initial task of a league runs on this thread, one after another. */
static void run_initial(void *it) {
    struct region *region = it;
    unsigned size = (unsigned)REAL(omp_get_num_teams)(), index = (unsigned)REAL(omp_get_team_num)();
    ompt_data_t task = {0};
    on_implicit_task(ompt_scope_begin, &region->id, &task, size, index, ompt_task_initial);
    region->call(region->data);
    on_implicit_task(ompt_scope_end, &region->id, &task, size, index, ompt_task_initial);
}

static void end_league(struct region *region, const void *code) {
    ompt_data_t task = running_task();
    on_parallel_end(&region->id, &task, PARALLEL_LEAGUE, code);
}

EXPORTED void GOMP_teams_reg(function *call, void *data, unsigned teams, unsigned limit, unsigned flags) {
    if (!recorded_thread()) {
        REAL(GOMP_teams_reg)(call, data, teams, limit, flags);
        return;
    }
    struct region region = {.call = call, .data = data};
    const void *code = CODE;
    begin_region(&region, teams, PARALLEL_LEAGUE, code);
    REAL(GOMP_teams_reg)(run_initial, &region, teams, limit, flags);
    end_league(&region, code);
}

/* Dependences */

/* Kinds of dependences in depend objects, as gcc writes them. */
static ompt_dependence_type_t type_of(uintptr_t kind) {
    static const ompt_dependence_type_t types[] = {0, ompt_dependence_type_in, ompt_dependence_type_inout,
                                                   ompt_dependence_type_inout, ompt_dependence_type_mutexinoutset,
                                                   ompt_dependence_type_inoutset};
    return kind < sizeof types / sizeof *types ? types[kind] : 0;
}

static ompt_dependence_t *put_items(ompt_dependence_t *to, void **from, size_t count, ompt_dependence_type_t type) {
    for (size_t i = 0; i < count; i++)
        *to++ = (ompt_dependence_t){{.ptr = from[i]}, type};
    return to;
}

static void put_objects(ompt_dependence_t *to, void **from, size_t count) {
    for (size_t i = 0; i < count; i++) {
        void **object = from[i];
        *to++ = (ompt_dependence_t){{.ptr = object[0]}, type_of((uintptr_t)object[1])};
    }
}

static size_t count_of(void **list) {
    return list[0] ? (size_t)list[0] : (size_t)list[1];
}

/* Tells the dependences of a task. A list has two layouts: its count, how many are `out`, and the addresses, these first;
   or 0, its count, how many are out, mutexinoutset and in, the addresses in that order, and behind them depend objects. */
static void tell_list(ompt_data_t *task, void **list) {
    size_t count = count_of(list), outs = (size_t)list[list[0] ? 1 : 2];
    ompt_dependence_t few[MAX_DEPENDENCES], *items = count > MAX_DEPENDENCES ? malloc(count * sizeof *items) : few, *to = items;
    if (!items) return;
    if (list[0]) {
        to = put_items(to, list + 2, outs, ompt_dependence_type_inout);
        put_items(to, list + 2 + outs, count - outs, ompt_dependence_type_in);
    } else {
        size_t mutexes = (size_t)list[3], ins = (size_t)list[4];
        to = put_items(to, list + 5, outs, ompt_dependence_type_inout);
        to = put_items(to, list + 5 + outs, mutexes, ompt_dependence_type_mutexinoutset);
        to = put_items(to, list + 5 + outs + mutexes, ins, ompt_dependence_type_in);
        put_objects(to, list + 5 + outs + mutexes + ins, count - outs - mutexes - ins);
    }
    on_dependences(task, items, (int)count);
    if (items != few) free(items);
}

/* A taskwait with dependences is a task for OMPT. */
EXPORTED void GOMP_taskwait_depend(void **list) {
    ompt_data_t creator = running_task(), task = {0};
    int flags = ompt_task_taskwait | ompt_task_undeferred | ompt_task_mergeable;
    on_task_create(&creator, NULL, &task, flags, count_of(list) > 0, CODE);
    if (count_of(list)) tell_list(&task, list);
    REAL(GOMP_taskwait_depend)(list);
    on_task_schedule(&task, ompt_taskwait_complete, NULL);
}

/* Detached tasks */

/* The event of a task, until the body of the task has ended and the event is fulfilled. */
struct event {
    struct event *next;
    void *id;
    ompt_data_t task;
    pthread_mutex_t fulfilling;
    bool has_ended, is_fulfilled;
};

enum { EVENTS = 1 << 10 };
static struct event *events[EVENTS];
static pthread_mutex_t adding = PTHREAD_MUTEX_INITIALIZER;

static struct event **event_place(void *id) {
    struct event **at = &events[((uintptr_t)id >> 4) % EVENTS];
    while (*at && (*at)->id != id) at = &(*at)->next;
    return at;
}

static struct event *add_event(void *id, ompt_data_t task) {
    struct event *made = calloc(1, sizeof *made);
    if (!made) return NULL;
    made->id = id;
    made->task = task;
    pthread_mutex_init(&made->fulfilling, NULL);
    pthread_mutex_lock(&adding);
    struct event **at = event_place(id);
    made->next = *at;
    *at = made;
    pthread_mutex_unlock(&adding);
    return made;
}

/* Takes the event from the others: its address may be used again once it is fulfilled. */
static struct event *take_event(void *id) {
    pthread_mutex_lock(&adding);
    struct event **at = event_place(id), *taken = *at;
    if (taken) *at = taken->next;
    pthread_mutex_unlock(&adding);
    return taken;
}

/* Takes the lock of an event, behind which no thread is delayed; before it this one may be, for a task may finish there. */
static void enter_event(struct event *event) {
    struct thread *thread = recorded_thread();
    if (thread) {
        shake(thread, BEFORE_FINISH);
        thread->is_held = true;
    }
    pthread_mutex_lock(&event->fulfilling);
}

/* Gives the lock back, and frees the event once both have happened. */
static void leave_event(struct event *event) {
    struct thread *thread = recorded_thread();
    bool is_over = event->has_ended && event->is_fulfilled;
    pthread_mutex_unlock(&event->fulfilling);
    if (thread) thread->is_held = false;
    if (is_over) free(event);
}

EXPORTED void omp_fulfill_event(void *id) {
    struct event *event = take_event(id);
    if (event) {
        running_task();
        enter_event(event);
        event->is_fulfilled = true;
        on_task_schedule(&event->task, event->has_ended ? ompt_task_late_fulfill : ompt_task_early_fulfill, NULL);
        leave_event(event);
    }
    REAL(omp_fulfill_event)(id);
}

EXPORTED void omp_fulfill_event_(void *id) {
    omp_fulfill_event(id);
}

/* Explicit tasks */

/* What is before the program's data in the block of a task. */
struct header {
    uint64_t bounds[2];         /* of a part of a taskloop: libgomp writes them at the begin of a block */
    function *call;
    ompt_data_t task;
    struct event *event;
    size_t offset;              /* of the program's data */
    bool is_part, may_be_dropped;
};

/* A task that is created, in the place of the data that the program gives. */
struct creation {
    void *event;                /* libgomp writes it here */
    void *unused;
    void *reductions;           /* of a taskloop: libgomp reads the third word of the data */
    function *call;
    void *data;
    void (*copy)(void *, void *);
    size_t size, offset;
    void **list;
    const void *code;
    int flags;
    bool is_detached, is_part, may_be_dropped;
};

static size_t offset_of(long align) {
    size_t unit = align > 16 ? (size_t)align : 16;
    return (sizeof(struct header) + unit - 1) / unit * unit;
}

static long align_of(long align) {
    return align > 16 ? align : 16;
}

/* Makes the block of a task, on the thread that creates it and before any thread can run it. */
static void copy_block(void *to, void *from) {
    const struct creation *made = from;
    struct header *header = to;
    void *data = (char *)to + made->offset;
    if (made->is_detached && made->data) *(void **)made->data = made->event;
    if (made->copy) made->copy(data, made->data);
    else if (made->size) memcpy(data, made->data, made->size);
    ompt_data_t creator = running_task(), task = {0};
    bool has_list = made->list && count_of(made->list);
    on_task_create(&creator, NULL, &task, made->flags, has_list, made->code);
    if (has_list) tell_list(&task, made->list);
    *header = (struct header){.call = made->call, .task = task, .offset = made->offset, .is_part = made->is_part,
                              .may_be_dropped = made->may_be_dropped};
    if (made->is_detached) header->event = add_event(made->event, task);
}

/* The innermost task that this thread is creating. */
static __thread const struct creation *creating __attribute__((tls_model("initial-exec")));

/* Whether a task runs inside the call that creates it: then its block is on the stack, behind what creates it. */
static bool is_undeferred(const struct header *block) {
    uintptr_t at = (uintptr_t)block;
    return at < (uintptr_t)creating && at > (uintptr_t)__builtin_frame_address(0);
}

bool GOMP_cancellation_point(int which);

/* Whether cancellation drops this task: libgomp itself drops none that has a function for copies. It drops no undeferred
   one in any case. */
static bool is_dropped(const struct header *header) {
    return header->may_be_dropped && !is_undeferred(header) && REAL(GOMP_cancellation_point)(CANCEL_TASKGROUP);
}

/* Tells that a task is dropped, and fulfils its event: libgomp, for which the task runs, would wait for that. Where the event
   is fulfilled already, or about to be, no record can say that the task is dropped, and this returns false. */
static bool drop(struct header *header) {
    struct event *event = header->event;
    if (event && !take_event(event->id)) return false;
    on_cancel(&header->task, ompt_cancel_discarded_task | ompt_cancel_taskgroup, NULL);
    if (event) REAL(omp_fulfill_event)(event->id);
    free(event);
    return true;
}

/* The body of a task has ended, and the task below goes on. */
static void end_body(struct header *header, ompt_data_t *below) {
    ompt_task_status_t status = ompt_task_complete;
    struct event *event = header->event;
    if (event) {
        enter_event(event);
        event->has_ended = true;
        if (!event->is_fulfilled) status = ompt_task_detach;
    }
    on_task_schedule(&header->task, status, below);
    if (event) leave_event(event);
}

static void run_task(void *block) {
    struct header *header = block;
    char *data = (char *)block + header->offset;
    bool is_empty = is_dropped(header);
    if (is_empty && drop(header)) return;
    if (header->is_part) memcpy(data, header->bounds, sizeof header->bounds);
    ompt_data_t below = running_task();
    on_task_schedule(&below, ompt_task_switch, &header->task);
    if (!is_empty) header->call(data);
    end_body(header, &below);
}

static int flags_of(unsigned flags, bool is_deferred) {
    return ompt_task_explicit | (flags & IS_UNTIED ? ompt_task_untied : 0) | (flags & IS_FINAL ? ompt_task_final : 0) |
           (flags & IS_MERGEABLE ? (int)ompt_task_mergeable : 0) | (is_deferred ? 0 : ompt_task_undeferred);
}

static bool is_cancellation_on(void) {
    static _Atomic int is_on;
    if (!atomic_load_explicit(&is_on, memory_order_relaxed)) atomic_store(&is_on, REAL(omp_get_cancellation)() ? 2 : 1);
    return atomic_load_explicit(&is_on, memory_order_relaxed) == 2;
}

EXPORTED void GOMP_task(function *call, void *data, void (*copy)(void *, void *), long size, long align, bool is_deferred,
               unsigned flags, void **list, int priority, void *detach) {
    if (!recorded_thread()) {
        REAL(GOMP_task)(call, data, copy, size, align, is_deferred, flags, list, priority, detach);
        return;
    }
    struct creation made = {.call = call, .data = data, .copy = copy, .size = (size_t)size, .offset = offset_of(align),
                            .list = flags & HAS_LIST ? list : NULL, .code = CODE, .flags = flags_of(flags, is_deferred),
                            .is_detached = flags & IS_DETACHED, .may_be_dropped = !copy && is_cancellation_on()};
    const struct creation *outer = creating;
    creating = &made;
    REAL(GOMP_task)(run_task, &made, copy_block, (long)made.offset + size, align_of(align), is_deferred, flags, list,
                    priority, detach);
    creating = outer;
}

#define CREATES_LOOP(name, type)                                                                                    \
    EXPORTED void name(function *call, void *data, void (*copy)(void *, void *), long size, long align, unsigned flags,      \
              unsigned long count, int priority, type start, type end, type step) {                                 \
        if (!recorded_thread()) {                                                                                   \
            REAL(name)(call, data, copy, size, align, flags, count, priority, start, end, step);                    \
            return;                                                                                                 \
        }                                                                                                           \
        struct creation made = {.call = call, .data = data, .copy = copy, .size = (size_t)size,                     \
                                .offset = offset_of(align), .code = CODE, .is_part = true,                          \
                                .reductions = flags & LOOP_REDUCTION ? ((void **)data)[2] : NULL,                   \
                                .flags = flags_of(flags & 7, flags & LOOP_IF),                                      \
                                .may_be_dropped = !copy && is_cancellation_on()};                                   \
        const struct creation *outer = creating;                                                                    \
        if (!(flags & LOOP_NOGROUP)) tell(ompt_sync_region_taskgroup, ompt_scope_begin, made.code);                 \
        creating = &made;                                                                                           \
        REAL(name)(run_task, &made, copy_block, (long)made.offset + size, align_of(align), flags, count, priority,  \
                   start, end, step);                                                                               \
        creating = outer;                                                                                           \
        if (!(flags & LOOP_NOGROUP)) tell(ompt_sync_region_taskgroup, ompt_scope_end, made.code);                   \
    }

CREATES_LOOP(GOMP_taskloop, long)
CREATES_LOOP(GOMP_taskloop_ull, unsigned long long)

/* Cancellation */

static int kind_of(int which) {
    return (which & CANCEL_PARALLEL ? ompt_cancel_parallel : 0) | (which & CANCEL_LOOP ? ompt_cancel_loop : 0) |
           (which & CANCEL_SECTIONS ? ompt_cancel_sections : 0) | (which & CANCEL_TASKGROUP ? ompt_cancel_taskgroup : 0);
}

static void tell_cancel(int which, int how, const void *code) {
    ompt_data_t task = running_task();
    on_cancel(&task, kind_of(which) | how, code);
}

EXPORTED bool GOMP_cancel(int which, bool is_asked) {
    const void *code = CODE;
    bool is_cancelled = REAL(GOMP_cancel)(which, is_asked);
    if (is_cancelled) tell_cancel(which, is_asked ? ompt_cancel_activated : ompt_cancel_detected, code);
    return is_cancelled;
}

EXPORTED bool GOMP_cancellation_point(int which) {
    const void *code = CODE;
    bool is_cancelled = REAL(GOMP_cancellation_point)(which);
    if (is_cancelled) tell_cancel(which, ompt_cancel_detected, code);
    return is_cancelled;
}

/* Devices */

#define MEETS_TARGET(name, types, words)              \
    EXPORTED void name(int device, UNPACK types) {    \
        if (recorded_thread()) note(TARGET_CONSTRUCTS, CODE); \
        REAL(name)(device, UNPACK words);             \
    }

/* On the host the construct runs at once in an initial task of its own, as a league of one has it; but later, in a task that
   is not seen, where it has `nowait` or dependences. */
EXPORTED void GOMP_target_ext(int device, function *call, size_t count, void **addresses, size_t *sizes,
                              unsigned short *kinds, unsigned flags, void **list, void **arguments) {
    const void *code = CODE;
    bool is_league = recorded_thread() && !(flags & TARGET_NOWAIT) && !list && is_nesting();
    struct region region = {.size = 0};
    ompt_data_t task = {0};
    if (recorded_thread()) note(TARGET_CONSTRUCTS, code);
    if (is_league) {
        begin_region(&region, 1, PARALLEL_LEAGUE, code);
        on_implicit_task(ompt_scope_begin, &region.id, &task, 1, 0, ompt_task_initial);
    }
    REAL(GOMP_target_ext)(device, call, count, addresses, sizes, kinds, flags, list, arguments);
    if (!is_league) return;
    on_implicit_task(ompt_scope_end, &region.id, &task, 1, 0, ompt_task_initial);
    end_league(&region, code);
}

MEETS_TARGET(GOMP_target_data_ext, (size_t count, void **addresses, size_t *sizes, unsigned short *kinds),
             (count, addresses, sizes, kinds))
MEETS_TARGET(GOMP_target_update_ext,
             (size_t count, void **addresses, size_t *sizes, unsigned short *kinds, unsigned flags, void **list),
             (count, addresses, sizes, kinds, flags, list))
MEETS_TARGET(GOMP_target_enter_exit_data,
             (size_t count, void **addresses, size_t *sizes, unsigned short *kinds, unsigned flags, void **list),
             (count, addresses, sizes, kinds, flags, list))
