/* An OMPT tool that records a run of an OpenMP program as a trace file of taskaudit. Each callback becomes a record in
   a buffer of its thread; the file is written at the end. taskaudit-run starts programs with it. */
#define _GNU_SOURCE
#include "callbacks.h"
#include "tool.h"
#include "recorder.h"

#include <pthread.h>
#include <signal.h>
#include <stdlib.h>
#include <string.h>
#include <sys/mman.h>
#include <sys/syscall.h>
#include <time.h>
#include <unistd.h>

/* The memory that a thread allocates at once: first little, since it may have few records, then two of the processor's
   large pages. */
enum { FIRST_PIECE = 256 << 10, PIECE = 4 << 20 };
/* Values that older headers lack, and the last of those that a file can name. */
enum { INOUTSET = 7, OUT_ALL_MEMORY = 34, INOUT_ALL_MEMORY = 35, PARALLEL_LEAGUE = 0x40000000 };
enum { LAST_THREAD_KIND = 4, LAST_STATUS = 8, LAST_REGION_KIND = 10 };

struct thread *threads[MAX_THREADS];
_Atomic int thread_count;
_Atomic uint32_t region_count;
_Atomic uint64_t notes[NOTES];
const void *_Atomic first_code[NOTES];

/* The ledger of finished tasks, of which a recorder needs only the length. It has a cache line of its own. */
static _Alignas(64) _Atomic uint32_t ledger;
/* Whether recording is over: a limit is reached, or the file is being written. */
static _Alignas(64) _Atomic bool is_over;
static _Atomic uint32_t block_count, task_block_count;
static __thread struct thread *own __attribute__((tls_model("initial-exec")));
/* Whether this process was forked, and whether it has a file. */
static bool is_forked;
static _Atomic bool has_file = true;

void note(enum note what, const void *code) {
    if (atomic_fetch_add_explicit(&notes[what], 1, memory_order_relaxed) == 0) atomic_store(&first_code[what], code);
}

void stop(enum note why, const void *code) {
    if (!atomic_exchange(&is_over, true)) note(why, code);
}

/* Lets this thread write the file also where its own stack is full. */
static void set_signal_stack(void) {
    stack_t was, ours = {.ss_size = 1 << 16};
    if (sigaltstack(NULL, &was) != 0 || !(was.ss_flags & SS_DISABLE)) return;
    if ((ours.ss_sp = malloc(ours.ss_size))) sigaltstack(&ours, NULL);
}

/* Threads of the system that have ended, whose numbers and buffers others go on with. */
static struct thread *first_ended;
static pthread_mutex_t ending = PTHREAD_MUTEX_INITIALIZER;
static _Atomic int ended_count;

static struct thread *ended_thread(void) {
    if (atomic_load_explicit(&ended_count, memory_order_relaxed) == 0) return NULL;
    pthread_mutex_lock(&ending);
    struct thread *found = first_ended;
    if (found) {
        first_ended = found->next_ended;
        atomic_fetch_sub(&ended_count, 1);
    }
    pthread_mutex_unlock(&ending);
    return found;
}

void release_thread(struct thread *thread) {
    pthread_mutex_lock(&ending);
    thread->next_ended = first_ended;
    first_ended = thread;
    atomic_fetch_add(&ended_count, 1);
    pthread_mutex_unlock(&ending);
}

/* Makes this thread, at its first callback of any kind: a thread that is not the runtime's may fulfil an event. */
static __attribute__((noinline)) struct thread *new_thread(void) {
    if ((!atomic_exchange(&has_file, true) && !begin_file_of_fork()) || (settings.is_live && !begin_writing())) {
        atomic_store(&is_over, true);
        return NULL;
    }
    struct thread *ended = ended_thread();
    if (ended) {
        ended->id = (int)syscall(SYS_gettid);
        return own = ended;
    }
    int number = atomic_fetch_add(&thread_count, 1);
    struct thread *made = number < MAX_THREADS ? calloc(1, sizeof *made) : NULL;
    if (!made) {
        stop(number < MAX_THREADS ? NO_MEMORY : MANY_THREADS, NULL);
        return NULL;
    }
    set_signal_stack();
    made->number = number;
    made->id = (int)syscall(SYS_gettid);
    __atomic_store_n(&threads[number], made, __ATOMIC_RELEASE);
    return own = made;
}

struct thread *act_as(struct thread *thread) {
    struct thread *was = own;
    own = thread;
    return was;
}

struct thread *this_thread(void) {
    if (atomic_load_explicit(&is_over, memory_order_relaxed)) return NULL;
    return own ? own : new_thread();
}

void end_recording(void) {
    atomic_store(&is_over, true);
}

bool is_recording(void) {
    return !atomic_load_explicit(&is_over, memory_order_relaxed);
}

uint32_t entry_count(void) {
    return atomic_load(&ledger);
}

/* The first callback makes a file, so that a process that uses no OpenMP has none. */
void forget_records(void) {
    own = NULL;
    first_ended = NULL;
    ended_count = 0;
    memset(threads, 0, sizeof threads);
    memset(notes, 0, sizeof notes);
    thread_count = 0;
    region_count = ledger = block_count = task_block_count = 0;
    if (settings.is_live) forget_writing();
    is_forked = true;
    has_file = false;
    atomic_store(&is_over, false);
}

/* It is taken in large pieces, which cost few page faults. */
void *take(struct thread *thread, size_t bytes) {
    bytes = (bytes + 15) / 16 * 16;
    if (bytes > thread->memory_left) {
        size_t size = thread->memory ? PIECE : FIRST_PIECE;
        void *piece = mmap(NULL, size, PROT_READ | PROT_WRITE, MAP_PRIVATE | MAP_ANONYMOUS, -1, 0);
        if (piece == MAP_FAILED) return NULL;
        if (size == PIECE) madvise(piece, size, MADV_HUGEPAGE);
        thread->memory = piece;
        thread->memory_left = size;
    }
    void *taken = thread->memory;
    thread->memory += bytes;
    thread->memory_left -= bytes;
    return taken;
}

/* Adds room for more records; returns false where a limit is reached. */
static __attribute__((noinline)) bool add_block(struct thread *thread) {
    if (settings.is_live) return add_live_block(thread);
    bool is_full = atomic_fetch_add(&block_count, 1) >= MAX_RECORDS / RECORDS_OF_BLOCK;
    size_t times = settings.has_times ? RECORDS_OF_BLOCK * sizeof *thread->last->times : 0;
    struct block *made = is_full ? NULL : take(thread, sizeof *made + times);
    if (!made) {
        stop(is_full ? MANY_RECORDS : NO_MEMORY, NULL);
        return false;
    }
    if (thread->last) thread->last->next = made;
    else thread->first = made;
    thread->last = made;
    thread->capacity += RECORDS_OF_BLOCK;
    return true;
}

/* Returns room for one more record, or NULL where a limit is reached. */
static struct record *room(struct thread *thread) {
    uint32_t count = atomic_load_explicit(&thread->count, memory_order_relaxed);
    if (count == thread->capacity && !add_block(thread)) return NULL;
    return &thread->last->records[count % RECORDS_OF_BLOCK];
}

static __attribute__((noinline)) uint64_t time_of_clock(void) {
    struct timespec time;
    clock_gettime(CLOCK_MONOTONIC, &time);
    return (uint64_t)time.tv_sec * 1000000000 + (uint64_t)time.tv_nsec;
}

/* Returns the time in nanoseconds, or 0 where the file is to have no times. */
static uint64_t now(void) {
    return settings.has_times ? time_of_clock() : 0;
}

/* Adds a record, with its time if it has one. What comes before the count is written when the count is. */
static bool keep(struct thread *thread, struct record record, uint64_t time) {
    struct record *at = room(thread);
    if (!at) return false;
    *at = record;
    uint32_t count = atomic_load_explicit(&thread->count, memory_order_relaxed);
    if (time) thread->last->times[count % RECORDS_OF_BLOCK] = time;
    atomic_store_explicit(&thread->count, count + 1, memory_order_release);
    return true;
}

/* Adds a record that repeats what its thread last knew. */
static bool keep_known(struct thread *thread, struct record record) {
    record.seen = thread->known;
    return keep(thread, record, now());
}

/* Adds a record that reads the ledger's length. */
static void keep_reading(struct thread *thread, struct record record) {
    record.seen = thread->known = atomic_load(&ledger);
    keep(thread, record, now());
}

/* Adds a record that finishes a task: it appends an entry. Room comes first, so that no index is without a record. The
   time is from before, so that no record that has seen the entry has an earlier one. */
static void keep_finishing(struct thread *thread, struct record record) {
    if (!room(thread)) return;
    uint64_t time = now();
    record.seen = atomic_fetch_add(&ledger, 1);
    record.size = record.task->children;
    thread->known = record.seen + 1;
    keep(thread, record, time);
}

static struct task *task_of(const ompt_data_t *data) {
    return data ? data->ptr : NULL;
}

/* Returns a new task, or NULL where a limit is reached. */
static struct task *new_task(struct thread *thread) {
    if (thread->tasks_left == 0) {
        if (settings.is_live) return new_live_task(thread);
        bool is_full = atomic_fetch_add(&task_block_count, 1) >= MAX_TASKS / TASKS_OF_BLOCK;
        thread->tasks = is_full ? NULL : take(thread, TASKS_OF_BLOCK * sizeof *thread->tasks);
        if (!thread->tasks) {
            stop(is_full ? MANY_TASKS : NO_MEMORY, NULL);
            return NULL;
        }
        thread->tasks_left = TASKS_OF_BLOCK;
    }
    struct task *made = &thread->tasks[TASKS_OF_BLOCK - thread->tasks_left--];
    made->root = made;
    made->thread = -1;
    return made;
}

/* The callbacks, in the order of OpenMP 5.2, 19.5.2 */

void on_thread_begin(ompt_thread_t kind, ompt_data_t *data) {
    (void)data;
    struct thread *thread = this_thread();
    struct record record = {.callback = THREAD_BEGIN, .kind = (int)kind <= LAST_THREAD_KIND ? kind : 0};
    if (thread) keep_known(thread, record);
}

void on_thread_end(ompt_data_t *data) {
    (void)data;
    struct thread *thread = this_thread();
    if (thread) keep_known(thread, (struct record){.callback = THREAD_END});
}

static void begin_root(struct thread *thread, struct record record, ompt_data_t *data) {
    struct task *root = record.task = new_task(thread);
    if (!root) return;
    data->ptr = root;
    root->is_initial = record.flags & ompt_task_initial;
    /* the index of any other initial task is 1, and its `actual` too */
    root->is_of_league = root->is_initial && is_nesting() && record.index < record.size;
    root->parent = thread->innermost;
    root->outer = is_nesting() ? thread->current : thread->innermost;
    root->thread = thread->number;
    thread->innermost = thread->current = root;
    keep_known(thread, record);
}

/* Begins an initial task that the runtime does not tell of, on a thread that runs no task. Returns it, or NULL. */
static struct task *add_initial(struct thread *thread, ompt_data_t *data) {
    if (!data || thread->current) return NULL;
    keep_known(thread, (struct record){.callback = THREAD_BEGIN, .kind = ompt_thread_initial});
    begin_root(thread, (struct record){.callback = IMPLICIT_TASK, .endpoint = ompt_scope_begin, .size = 1, .index = 1,
                                       .flags = ompt_task_initial}, data);
    return task_of(data);
}

/* In a forked process the runtime begins anew, and does not tell of the initial task that it begins: that begins here,
   where it first occurs. Returns it, or NULL. */
__attribute__((noinline)) static struct task *begin_initial(struct thread *thread, ompt_data_t *data) {
    return is_forked ? add_initial(thread, data) : NULL;
}

/* Returns the task of a callback that tells which task runs. */
static struct task *running_task(struct thread *thread, ompt_data_t *data) {
    struct task *task = task_of(data);
    return task ? task : begin_initial(thread, data);
}

/* Returns the task that begins a region. Hidden helper threads, which run target tasks, may begin theirs in no task:
   then it is an initial task that begins here. */
static struct task *encountering_task(struct thread *thread, ompt_data_t *data) {
    struct task *task = running_task(thread, data);
    if (task || !is_nesting()) return task;
    task = add_initial(thread, data);
    if (task) note(HELPERS_WITHOUT_TASK, NULL);
    return task;
}

void on_parallel_begin(ompt_data_t *encountering, const ompt_frame_t *frame, ompt_data_t *region,
                              unsigned int requested, int flags, const void *code) {
    (void)frame;
    struct thread *thread = this_thread();
    struct task *task = thread ? encountering_task(thread, encountering) : NULL;
    if (!task) return;
    if (flags & PARALLEL_LEAGUE && !is_nesting()) note(TEAMS, code);
    region->value = atomic_fetch_add(&region_count, 1) + 1;
    keep_known(thread, (struct record){.callback = PARALLEL_BEGIN, .task = task, .region = region->value,
                                       .size = requested, .code = code});
}

void on_parallel_end(ompt_data_t *region, ompt_data_t *encountering, int flags, const void *code) {
    (void)flags;
    struct thread *thread = this_thread();
    struct task *task = task_of(encountering);
    if (thread && task)
        keep_known(thread, (struct record){.callback = PARALLEL_END, .task = task, .region = region->value,
                                           .code = code});
}

/* Ends the innermost root. exit() inside a task ends the initial task while another one runs: no record says that. */
static void end_root(struct thread *thread, struct record record, struct task *root) {
    if (!root || root != thread->innermost || root != thread->current) {
        note(WRONG_END, NULL);
        return;
    }
    record.task = root;
    thread->innermost = root->parent;
    thread->current = root->outer;
    keep_known(thread, record);
}

void on_implicit_task(ompt_scope_endpoint_t endpoint, ompt_data_t *region, ompt_data_t *data,
                             unsigned int actual, unsigned int index, int flags) {
    struct thread *thread = this_thread();
    if (!thread) return;
    struct record record = {.callback = IMPLICIT_TASK, .endpoint = endpoint, .size = actual, .index = index,
                            .flags = flags, .region = region ? region->value : 0};
    if (endpoint == ompt_scope_begin) {
        begin_root(thread, record, data);
        if (!(flags & ompt_task_initial)) shake(thread, MEMBER_BEGINS);
    } else end_root(thread, record, task_of(data));
}

/* A task is the child of the one that creates it. Parts of a taskloop are created in the name of a task that does not
   run there; then it is the one that does. */
void on_task_create(ompt_data_t *encountering, const ompt_frame_t *frame, ompt_data_t *data, int flags,
                           int has_dependences, const void *code) {
    (void)frame;
    struct thread *thread = this_thread();
    if (!thread) return;
    struct task *creator = running_task(thread, encountering);
    if (thread->current && creator != thread->current) {
        note(CREATED_FOR_ANOTHER, code);
        creator = thread->current;
    }
    if (creator && creator->depth == MAX_DEPTH) { /* the claims of its children could not be said */
        stop(DEEP_TASKS, code);
        return;
    }
    struct task *made = creator ? new_task(thread) : NULL;
    if (!made) return;
    data->ptr = made;
    if (flags & ompt_task_target && !is_nesting()) note(TARGET, code);
    made->parent = creator;
    made->root = creator->root;
    made->depth = creator->depth + 1;
    made->number = creator->children++;
    keep_known(thread, (struct record){.callback = TASK_CREATE, .endpoint = has_dependences != 0, .task = creator,
                                       .other = made, .flags = flags, .code = code});
    shake(thread, BEHIND_CREATION);
}

/* Copies the items that a file can say, and returns how many there are. */
static uint32_t copy_list(struct dependence *list, const ompt_dependence_t *items, int count) {
    uint32_t kept = 0;
    for (int i = 0; i < count; i++) {
        uint32_t type = items[i].dependence_type;
        if (type == ompt_dependence_type_source || type == ompt_dependence_type_sink) note(DOACROSS, NULL);
        else if (type == OUT_ALL_MEMORY || type == INOUT_ALL_MEMORY) note(ALL_MEMORY, NULL);
        else if (type == 0 || type > INOUTSET) note(UNKNOWN, NULL);
        else if (kept == MAX_DEPENDENCES) note(LONG_LIST, NULL);
        else list[kept++] = (struct dependence){items[i].variable.value, type};
    }
    return kept;
}

/* Dependences count only directly after the creation of their task, which then says that they follow. */
void on_dependences(ompt_data_t *data, const ompt_dependence_t *items, int count) {
    struct thread *thread = this_thread();
    struct task *task = task_of(data);
    if (!thread || !task) return;
    uint32_t made = atomic_load_explicit(&thread->count, memory_order_relaxed);
    struct record *creation = made ? &thread->last->records[(made - 1) % RECORDS_OF_BLOCK] : NULL;
    bool is_behind = creation && creation->callback == TASK_CREATE && creation->other == task;
    size_t most = count < MAX_DEPENDENCES ? (size_t)count : MAX_DEPENDENCES;
    struct dependence *list = NULL;
    if (!settings.is_live) list = take(thread, most * sizeof *list);
    else if (room(thread)) list = take_list(thread, most); /* which goes when the block of its record does */
    if (!list) {
        stop(NO_MEMORY, NULL);
        return;
    }
    uint32_t kept = copy_list(list, items, count);
    if (kept && !is_behind) note(LATE_LIST, NULL);
    if (!kept || !is_behind || !room(thread)) return;
    creation->kind = task->has_list = true; /* before the record is there: what is behind a creation has it written */
    keep_known(thread, (struct record){.callback = DEPENDENCES, .task = task, .list = list, .size = kept});
}

/* A status that names no next task. */
static bool is_without_next(int status) {
    return status == ompt_task_early_fulfill || status == ompt_task_late_fulfill || status == ompt_taskwait_complete;
}

static bool is_finishing(int status) {
    return status != ompt_task_yield && status != ompt_task_early_fulfill && status != ompt_task_switch;
}

/* The finish of a task may come later, where its record is none by which a wait ends or a task starts: that has to see
   what was finished when the runtime went on. */
static void shake_before(struct thread *thread, ompt_task_status_t status, const struct task *next) {
    if (settings.way == AS_IT_IS || !is_finishing(status) || status == ompt_taskwait_complete) return;
    if (!next || next->thread >= 0) shake(thread, BEFORE_FINISH);
}

static void shake_behind(struct thread *thread, ompt_task_status_t status, const struct task *next) {
    if (settings.way == AS_IT_IS) return;
    if (next) shake(thread, BEHIND_START);
    else if (status == ompt_taskwait_complete) shake(thread, BEHIND_WAIT);
}

/* Says that the task runs from here on, and returns which of its turns begins. A task starts in turn 0, a root where
   it begins; each time that it resumes, its turn is one greater. The turn stays with the task, which no thread runs
   while it is suspended. Notes where the task runs on another thread than its first one. */
static uint32_t run_next(struct thread *thread, struct task *next) {
    thread->current = next;
    if (next->thread < 0) {
        next->thread = thread->number;
        return next->turn;
    }
    if (next->thread != thread->number) note(MOVED, NULL);
    return ++next->turn;
}

void on_task_schedule(ompt_data_t *prior_data, ompt_task_status_t status, ompt_data_t *next_data) {
    struct thread *thread = this_thread();
    struct task *prior = task_of(prior_data), *next = is_without_next(status) ? NULL : task_of(next_data);
    if (!thread) return;
    if (!prior || (!next && !is_without_next(status))) {
        note(NO_TASK, NULL);
        return;
    }
    if (status == 0 || (int)status > LAST_STATUS) {
        note(UNKNOWN, NULL);
        return;
    }
    if (prior->is_discarded && prior != thread->current) { /* the runtime reports it once more */
        note(DISCARDED_TWICE, NULL);
        return;
    }
    if (prior == next && !is_finishing(status)) { /* a part of an untied task, from its own point of view */
        note(UNTIED, NULL);
        if (next == thread->current || !thread->current) return;
        prior = thread->current;
    }
    shake_before(thread, status, next);
    struct record record = {.callback = TASK_SCHEDULE, .kind = status, .task = prior, .other = next,
                            .turns = {.prior = prior->turn}};
    if (next) record.turns.next = run_next(thread, next);
    if (is_finishing(status)) keep_finishing(thread, record);
    else keep_reading(thread, record);
    shake_behind(thread, status, next);
}

/* Whether this is the kind of the barrier at a region's end. */
static bool is_join(ompt_sync_region_t kind) {
    return kind == ompt_sync_region_barrier_implicit || kind == ompt_sync_region_barrier_implicit_parallel;
}

/* Returns the task of which a region ends here. The end of the join barrier of a region in a teams construct may be told
   as of the task below the member: that of the region which each initial task of the construct begins. */
__attribute__((noinline)) static struct task *ending_task(struct thread *thread, ompt_sync_region_t kind,
                                                          struct task *task) {
    struct task *member = thread->current;
    if (!is_nesting() || !member || member != thread->innermost || member->outer != task) return task;
    if (!is_join(kind) || task != member->parent || !task->parent || !task->parent->is_of_league) return task;
    note(JOINS_IN_TEAMS, NULL);
    return member;
}

void on_sync_region(ompt_sync_region_t kind, ompt_scope_endpoint_t endpoint, ompt_data_t *region,
                           ompt_data_t *data, const void *code) {
    struct thread *thread = this_thread();
    if (!thread) return;
    struct task *task = running_task(thread, data);
    if (!task || kind == 0 || (int)kind > LAST_REGION_KIND) {
        note(task ? UNKNOWN : NO_TASK, code);
        return;
    }
    if (endpoint == ompt_scope_end && task != thread->current) task = ending_task(thread, kind, task);
    struct record record = {.callback = SYNC_REGION, .kind = kind, .endpoint = endpoint, .task = task, .code = code,
                            .region = region ? region->value : 0};
    if (endpoint == ompt_scope_begin) {
        shake(thread, BEFORE_WAIT);
        keep_known(thread, record);
    } else {
        keep_reading(thread, record);
        shake(thread, BEHIND_WAIT);
    }
}

void on_reduction(ompt_sync_region_t kind, ompt_scope_endpoint_t endpoint, ompt_data_t *region,
                         ompt_data_t *data, const void *code) {
    (void)kind;
    on_sync_region(ompt_sync_region_reduction, endpoint, region, data, code);
}

void on_cancel(ompt_data_t *data, int flags, const void *code) {
    struct thread *thread = this_thread();
    struct task *task = task_of(data);
    if (!thread || !task) return;
    struct record record = {.callback = CANCEL, .flags = flags, .task = task, .code = code};
    if (!(flags & ompt_cancel_discarded_task)) {
        keep_known(thread, record);
        return;
    }
    task->is_discarded = true;
    shake(thread, BEFORE_FINISH);
    keep_finishing(thread, record);
}

/* How a run begins and ends */

static int initialize(ompt_function_lookup_t lookup, int device, ompt_data_t *data) {
    (void)device, (void)data;
    ompt_set_callback_t set = (ompt_set_callback_t)lookup("ompt_set_callback");
    static const struct { ompt_callbacks_t event; ompt_callback_t call; } calls[] = {
        {ompt_callback_thread_begin, (ompt_callback_t)on_thread_begin},
        {ompt_callback_thread_end, (ompt_callback_t)on_thread_end},
        {ompt_callback_parallel_begin, (ompt_callback_t)on_parallel_begin},
        {ompt_callback_parallel_end, (ompt_callback_t)on_parallel_end},
        {ompt_callback_implicit_task, (ompt_callback_t)on_implicit_task},
        {ompt_callback_task_create, (ompt_callback_t)on_task_create},
        {ompt_callback_dependences, (ompt_callback_t)on_dependences},
        {ompt_callback_task_schedule, (ompt_callback_t)on_task_schedule},
        {ompt_callback_sync_region, (ompt_callback_t)on_sync_region},
        {ompt_callback_reduction, (ompt_callback_t)on_reduction},
        {ompt_callback_cancel, (ompt_callback_t)on_cancel},
    };
    for (size_t i = 0; i < sizeof calls / sizeof *calls; i++) set(calls[i].event, calls[i].call);
    watch_ending();
    return 1;
}

static void finalize(ompt_data_t *data) {
    (void)data;
    find_modules();
    end_process("end");
}

ompt_start_tool_result_t *start_recorder(void) {
    static ompt_start_tool_result_t result = {initialize, finalize, {0}};
    return begin_file() ? &result : NULL;
}
