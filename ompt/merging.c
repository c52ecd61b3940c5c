/* Goes through the records of all threads in the order of time, for writer.c. Each thread has its records in their
   order; its next one is its head. A head goes out when all that it goes on with is out: as many entries of the ledger
   as it has seen, the record that makes each task which it names, the end of the turn before the one in which its task
   resumes, and the begin of the parallel region of which it begins a member. A record that makes an entry goes out when
   no other head may: so whatever was recorded before the entry was made is before it. A run of which all was recorded
   has such an order, that in which the callbacks were called. It runs in signal handlers too, as writer.c does. */
#define _GNU_SOURCE
#include "recorder.h"

#include <omp-tools.h>
#include <string.h>
#include <sys/mman.h>

/* The records */

int thread_total;
uint32_t last_region;
struct cursor cursors[MAX_THREADS];
/* How many records each thread has. Taken once, since a thread may still be within a callback. */
static uint32_t totals[MAX_THREADS];
/* For each parallel region in how many passes its begin is out; NULL where there is no memory for this. */
static uint8_t *begun_in;
/* The number of this pass, from 1; and how many entries are out. */
static uint8_t pass;
static uint32_t entries;

void take_totals(void) {
    int made = atomic_load(&thread_count);
    thread_total = made < MAX_THREADS ? made : MAX_THREADS;
    for (int i = 0; i < thread_total; i++)
        totals[i] = threads[i] ? atomic_load_explicit(&threads[i]->count, memory_order_acquire) : 0;
    pass = 0;
    last_region = atomic_load(&region_count);
    begun_in = mmap(NULL, last_region + 1, PROT_READ | PROT_WRITE, MAP_PRIVATE | MAP_ANONYMOUS, -1, 0);
    if (begun_in == MAP_FAILED) begun_in = NULL;
}

struct cursor records_of(int number) {
    return (struct cursor){totals[number] ? threads[number]->first : NULL, 0, totals[number]};
}

const struct record *next_record(struct cursor *cursor) {
    if (cursor->at == cursor->count) return NULL;
    if (cursor->at && cursor->at % RECORDS_OF_BLOCK == 0) cursor->block = cursor->block->next;
    return &cursor->block->records[cursor->at++ % RECORDS_OF_BLOCK];
}

bool makes_entry(const struct record *record) {
    if (record->callback == CANCEL) return record->flags & ompt_cancel_discarded_task;
    return record->callback == TASK_SCHEDULE && record->kind != ompt_task_yield && record->kind != ompt_task_switch &&
           record->kind != ompt_task_early_fulfill;
}

/* What a head goes on with */

/* A length of the ledger, the begin of a parallel region, or a turn of a task that may begin: by its number. A task
   that is made may begin its turn 0. */
struct need {
    enum { NOTHING, LENGTH, REGION, TURN } kind;
    uint32_t number;
    struct task *task;
};

static bool is_made(const struct task *task) {
    return task->made_in >= pass;
}

static bool begins_root(const struct record *record) {
    return record->callback == IMPLICIT_TASK && record->endpoint == ompt_scope_begin;
}

static bool is_begun(uint32_t region) {
    if (settings.is_live) return is_begun_live(region);
    return !begun_in || begun_in[region] >= pass;
}

static void note_begun(uint32_t region) {
    if (begun_in) begun_in[region] = pass;
    struct live_team *team = settings.is_live ? live_team(region) : NULL;
    if (team) team->is_begun = true;
}

/* What the begin of a root lacks. What the runtime says of the region of an initial task may be wrong. */
static struct need lack_of_root(const struct record *record) {
    bool is_member = !record->task->is_initial && record->region && record->region <= last_region;
    if (!is_member || is_begun(record->region)) return (struct need){.kind = NOTHING};
    return (struct need){.kind = REGION, .number = record->region};
}

/* What a record lacks that lets a task go on. A root stops and goes on on one thread, so that its records are in order
   already; and in a file of version 1 or 2 that has regions inside others its turns may be wrong. A broken runtime may
   let the task go on that stops there. */
static struct need lack_of_next(const struct record *record) {
    struct task *next = record->other;
    uint32_t turn = record->turns.next;
    if (!is_made(next)) return (struct need){.kind = TURN, .task = next};
    if (turn <= *ended_of(next) || next->root == next || next == record->task) return (struct need){.kind = NOTHING};
    return (struct need){.kind = TURN, .number = turn, .task = next};
}

/* The first thing that the record goes on with and that is not out. */
static struct need lack_of(const struct record *record) {
    if (record->seen > entries) return (struct need){.kind = LENGTH, .number = record->seen};
    if (begins_root(record)) return lack_of_root(record);
    if (record->task && !is_made(record->task)) return (struct need){.kind = TURN, .task = record->task};
    if (record->callback == TASK_SCHEDULE && record->other) return lack_of_next(record);
    return (struct need){.kind = NOTHING};
}

/* Threads whose heads wait, in lists by what these lack; so what goes out meets few of the others. Lengths that follow
   each other have different lists, as have the tasks of a block and the regions: no list is met too often. */

enum { LISTS = 1024 };
/* A thread by its number, from 1; 0 ends a list. */
static uint16_t lists[LISTS], next_in_list[MAX_THREADS];
static struct need needs[MAX_THREADS];
static int waiting_count;
/* Threads whose heads are to be looked at, the last one first; and those whose heads make an entry and lack nothing. */
static uint8_t ready[MAX_THREADS], finishing[MAX_THREADS];
static int ready_count, finishing_count;

static uint16_t *list_of(struct need need) {
    return &lists[((uintptr_t)need.task / sizeof(struct task) + need.number) % LISTS];
}

static void wait_for(struct need need, int thread) {
    uint16_t *list = list_of(need);
    needs[thread] = need;
    next_in_list[thread] = *list;
    *list = (uint16_t)(thread + 1);
    waiting_count++;
}

/* Moves the threads that wait for this to those that are ready. */
static void wake(struct need need) {
    for (uint16_t *at = list_of(need); *at;) {
        int thread = *at - 1;
        struct need *found = &needs[thread];
        if (found->kind != need.kind || found->number != need.number || found->task != need.task) {
            at = &next_in_list[thread];
            continue;
        }
        *at = next_in_list[thread];
        found->kind = NOTHING;
        waiting_count--;
        ready[ready_count++] = (uint8_t)thread;
    }
}

static void make(struct task *task) {
    if (is_made(task)) return;
    task->made_in = pass;
    *ended_of(task) = 0;
}

/* Notes that this is out from here on. */
static void meet(struct need need) {
    if (need.kind == LENGTH) entries = need.number;
    else if (need.kind == REGION) note_begun(need.number);
    else if (need.number) *ended_of(need.task) = need.number;
    else make(need.task);
    wake(need);
}

/* Notes what is out when the record is. */
static void meet_by(const struct record *record) {
    bool begins_region = record->callback == PARALLEL_BEGIN && record->region <= last_region;
    if (record->callback == TASK_CREATE) meet((struct need){.kind = TURN, .task = record->other});
    else if (begins_root(record)) meet((struct need){.kind = TURN, .task = record->task});
    else if (begins_region) meet((struct need){.kind = REGION, .number = record->region});
    else if (record->callback == TASK_SCHEDULE && record->other)
        meet((struct need){.kind = TURN, .number = record->turns.prior + 1, .task = record->task});
    if (makes_entry(record) && record->seen >= entries) meet((struct need){.kind = LENGTH, .number = record->seen + 1});
}

/* The merge */

static const struct record *head_of(int thread) {
    struct cursor ahead = cursors[thread];
    return next_record(&ahead);
}

/* Whether the head of the thread goes out now. Else the thread waits, or has no more records. */
static bool goes_out(int thread) {
    const struct record *head = head_of(thread);
    if (!head) return false;
    struct need need = lack_of(head);
    if (need.kind != NOTHING) wait_for(need, thread);
    else if (makes_entry(head)) finishing[finishing_count++] = (uint8_t)thread;
    else return true;
    return false;
}

/* Where no head may go out, what one lacks was not recorded: the run was cut, or the runtime is broken. Then what the
   head lacks that has seen least counts as out, so that all records are written, and the audit says what is wrong. */
static void pass_over(void) {
    int least = -1;
    for (int i = 0; i < thread_total; i++)
        if (needs[i].kind != NOTHING && (least < 0 || head_of(i)->seen < head_of(least)->seen)) least = i;
    meet(needs[least]);
}

void begin_pass(void) {
    pass++;
    entries = 0;
    ready_count = 0;
    for (int i = thread_total - 1; i >= 0; i--) {
        cursors[i] = records_of(i);
        ready[ready_count++] = (uint8_t)i;
    }
}

/* The thread stays ready, so that its records are together where they may be. */
static const struct record *take_out(int thread) {
    const struct record *record = next_record(&cursors[thread]);
    meet_by(record);
    ready[ready_count++] = (uint8_t)thread;
    return record;
}

const struct record *next_in_time(int *thread) {
    while (ready_count + finishing_count + waiting_count) {
        if (ready_count) {
            *thread = ready[--ready_count];
            if (goes_out(*thread)) return take_out(*thread);
        } else if (finishing_count) {
            *thread = finishing[--finishing_count];
            return take_out(*thread);
        } else pass_over();
    }
    return NULL;
}

/* The same while the program runs. A record that makes an entry goes out only when all that happened before it is seen.
   That is so if it was seen already the time before the threads were looked at last: whatever happened before it was
   recorded by then. */

/* How many records each thread had the time before. */
static uint32_t settled[MAX_THREADS];
/* Threads whose head is their last record, and may be followed by the dependences that it has to say. */
static bool awaits_list[MAX_THREADS];

void begin_parts(void) {
    pass = 1;
    entries = 0;
    ready_count = finishing_count = waiting_count = 0;
    thread_total = 0;
    memset(lists, 0, sizeof lists);
    memset(needs, 0, sizeof needs);
    memset(cursors, 0, sizeof cursors);
    memset(settled, 0, sizeof settled);
    memset(awaits_list, 0, sizeof awaits_list);
}

/* Looks how many records the thread has by now; returns whether it has a head that it had not before. */
static bool look_at_thread(int number, struct thread *thread) {
    struct cursor *cursor = &cursors[number];
    uint32_t count = atomic_load_explicit(&thread->count, memory_order_acquire);
    settled[number] = cursor->count;
    if (count == cursor->count) return false;
    bool had_none = cursor->at == cursor->count || awaits_list[number];
    if (!cursor->block) cursor->block = thread->first;
    cursor->count = count;
    awaits_list[number] = false;
    if (had_none) ready[ready_count++] = (uint8_t)number;
    return had_none;
}

/* Comes where no thread is ready. */
bool look_again(void) {
    int made = atomic_load(&thread_count);
    bool is_more = finishing_count > 0;
    thread_total = made < MAX_THREADS ? made : MAX_THREADS;
    for (int i = 0; i < thread_total; i++) {
        struct thread *thread = __atomic_load_n(&threads[i], __ATOMIC_ACQUIRE);
        if (thread && look_at_thread(i, thread)) is_more = true;
    }
    last_region = atomic_load(&region_count);
    return is_more;
}

/* Whether it is not known yet what the head of the thread says. */
static bool is_unsaid(int thread) {
    const struct record *head = cursors[thread].at + 1 == cursors[thread].count ? head_of(thread) : NULL;
    return awaits_list[thread] = head && head->callback == TASK_CREATE && head->endpoint;
}

static bool is_settled(int thread) {
    return cursors[thread].at < settled[thread];
}

const struct record *next_so_far(int *thread) {
    while (ready_count) {
        *thread = ready[--ready_count];
        if (!is_unsaid(*thread) && goes_out(*thread)) return take_out(*thread);
    }
    if (!finishing_count || !is_settled(finishing[finishing_count - 1])) return NULL;
    *thread = finishing[--finishing_count];
    return take_out(*thread);
}

void give_up_waiting(void) {
    if (waiting_count && !ready_count) pass_over();
}

void end_parts(void) {
    for (int i = 0; i < thread_total; i++)
        if (awaits_list[i]) ready[ready_count++] = (uint8_t)i;
    memset(awaits_list, 0, sizeof awaits_list);
}
