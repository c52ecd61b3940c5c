/* merging [N]: tries the merge of the recorder, ompt/merging.c, on the records of N random runs (500) of up to 256
   threads. Of each run all records come in an order of time, by the rules in `is_in_order`. Also of a run of which
   records are lost, and of one in which some are changed, each record comes once, behind those of its thread before
   it, and in a second pass in the same order. The records of a run are also merged while it goes on: the threads are
   looked at one after another, while others add records. The last line is `N passed, M failed`. */
#include "recorder.h"

#include <omp-tools.h>
#include <stdio.h>
#include <stdlib.h>
#include <string.h>

enum { RUNS = 500, MOST_STEPS = 6000, MOST_TASKS = 2 * MOST_STEPS + MAX_THREADS };

struct thread *threads[MAX_THREADS];
_Atomic int thread_count;
_Atomic uint32_t region_count;
struct settings settings;

/* What the run has so far, and of each thread its records. */
static struct task tasks[MOST_TASKS];
static bool is_running[MOST_TASKS], is_over[MOST_TASKS];
static uint32_t turns[MOST_TASKS], task_count, ledger;
static struct thread all[MAX_THREADS];
/* The threads that added the records, in the order of time. */
enum { MOST_RECORDS = MOST_STEPS * 4 + MAX_THREADS, MOST_IN_PARTS = 16 };
static uint8_t history[MOST_RECORDS];
static uint32_t history_length;

static uint32_t drawn(uint32_t below) {
    static uint64_t state = 88172645463325252;
    state ^= state << 13;
    state ^= state >> 7;
    state ^= state << 17;
    return (uint32_t)(state >> 20) % below;
}

static void add(struct thread *thread, struct record record) {
    uint32_t at = thread->count % RECORDS_OF_BLOCK;
    if (at == 0) {
        struct block *made = calloc(1, sizeof *made);
        if (thread->last) thread->last->next = made;
        else thread->first = made;
        thread->last = made;
    }
    record.seen = thread->known;
    thread->last->records[at] = record;
    thread->count++;
    history[history_length++] = (uint8_t)(thread - all);
}

static void add_reading(struct thread *thread, struct record record) {
    thread->known = ledger;
    add(thread, record);
}

static void add_finishing(struct thread *thread, struct record record) {
    thread->known = ledger++;
    add(thread, record);
    thread->known++;
}

static struct task *new_task(bool runs) {
    is_running[task_count] = runs;
    return &tasks[task_count++];
}

/* The thread goes on with a task that runs nowhere, if one is found; its own one stops there, or ends. */
static void switch_task(struct thread *thread) {
    uint32_t prior = (uint32_t)(thread->current - tasks), next = drawn(task_count);
    if (is_running[next] || is_over[next] || thread->current->is_initial) return;
    bool ends = drawn(3) == 0, has_run = tasks[next].thread;
    tasks[next].thread = 1;
    struct record record = {.callback = TASK_SCHEDULE, .kind = ends ? ompt_task_complete : ompt_task_switch,
                            .task = thread->current, .other = &tasks[next],
                            .turns = {turns[prior], turns[next] += has_run}};
    is_running[prior] = false;
    is_over[prior] = ends;
    is_running[next] = true;
    thread->current = &tasks[next];
    if (ends) add_finishing(thread, record);
    else add_reading(thread, record);
}

static void begin_root(struct thread *thread, uint32_t region) {
    thread->current = new_task(true);
    thread->current->thread = 1;
    add(thread, (struct record){.callback = IMPLICIT_TASK, .endpoint = ompt_scope_begin, .region = region,
                                .task = thread->current});
}

static void fork_team(struct thread *thread, int count) {
    uint32_t region = ++region_count;
    add(thread, (struct record){.callback = PARALLEL_BEGIN, .task = thread->current, .region = region});
    for (int i = 0; i < 3; i++) begin_root(&all[drawn((uint32_t)count)], region);
}

/* Another thread fulfils the event of a task that is not over, often of one that runs. */
static void fulfil(struct thread *thread) {
    uint32_t task = drawn(2) ? drawn(task_count) : (uint32_t)(all[drawn((uint32_t)thread_count)].current - tasks);
    if (is_over[task]) return;
    add_reading(thread, (struct record){.callback = TASK_SCHEDULE, .kind = ompt_task_early_fulfill,
                                        .task = &tasks[task]});
}

static void discard(struct thread *thread) {
    uint32_t task = drawn(task_count);
    if (is_over[task] || tasks[task].thread) return;
    is_over[task] = true;
    add_finishing(thread, (struct record){.callback = CANCEL, .flags = ompt_cancel_discarded_task,
                                          .task = &tasks[task]});
}

static void create(struct thread *thread) {
    add(thread, (struct record){.callback = TASK_CREATE, .task = thread->current, .other = new_task(false)});
}

static void step(struct thread *thread, int count) {
    uint32_t what = drawn(20);
    if (what < 6) create(thread);
    else if (what < 15) switch_task(thread);
    else if (what < 17) add_reading(thread, (struct record){.callback = SYNC_REGION, .endpoint = ompt_scope_end,
                                                            .task = thread->current});
    else if (what == 17) fulfil(thread);
    else if (what == 18) discard(thread);
    else fork_team(thread, count);
}

static void forget(void) {
    for (int i = 0; i < MAX_THREADS; i++)
        for (struct block *block = all[i].first, *next; block; block = next) next = block->next, free(block);
    memset(all, 0, sizeof all);
    memset(tasks, 0, sizeof tasks);
    memset(is_over, 0, sizeof is_over);
    memset(turns, 0, sizeof turns);
    task_count = ledger = history_length = 0;
    region_count = 0;
}

/* Makes the records of a run of so many steps. */
static void run(int count, uint32_t steps) {
    forget();
    thread_count = count;
    for (int i = 0; i < count; i++) {
        threads[i] = &all[i];
        begin_root(&all[i], 0);
        all[i].current->is_initial = i % 8 == 7;
    }
    for (uint32_t i = 0; i < steps; i++) step(&all[drawn((uint32_t)count)], count);
}

static struct record *record_at(struct thread *thread, uint32_t at) {
    struct block *block = thread->first;
    for (; at >= RECORDS_OF_BLOCK; at -= RECORDS_OF_BLOCK) block = block->next;
    return &block->records[at];
}

/* Loses the last records of some threads. */
static void cut(int count) {
    for (int i = 0; i < count; i++)
        if (drawn(3) == 0) all[i].count -= drawn(all[i].count + 1);
}

/* Changes what some records have seen, or which task or turn they name. */
static void spoil(int count) {
    for (uint32_t changes = 1 + drawn(40); changes; changes--) {
        struct thread *thread = &all[drawn((uint32_t)count)];
        struct record *record = thread->count ? record_at(thread, drawn(thread->count)) : NULL;
        if (!record) continue;
        else if (drawn(2)) record->seen = drawn(2 * ledger + 2);
        else if (record->callback == TASK_SCHEDULE && record->other) record->turns.next = drawn(5);
        else record->task = &tasks[drawn(task_count)];
    }
}

/* What is out: how many entries, which turns have ended, and which tasks are made, and complete; and which regions. */
static uint32_t entries, ended[MOST_TASKS];
static bool is_made[MOST_TASKS], is_done[MOST_TASKS], is_begun[MOST_STEPS + 1];

static void begin_check(void) {
    entries = 0;
    memset(ended, 0, sizeof ended);
    memset(is_made, 0, sizeof is_made);
    memset(is_done, 0, sizeof is_done);
    memset(is_begun, 0, sizeof is_begun);
}

/* Whether the record may come now: so many entries are out as it has seen, the tasks that it names are made, the one
   that goes on has ended the turn before, the one that begins has a region that has begun, and the one whose event is
   fulfilled is not complete. */
static bool is_in_order(const struct record *record) {
    bool is_begin = record->callback == IMPLICIT_TASK, goes_on = record->callback == TASK_SCHEDULE && record->other;
    size_t task = (size_t)(record->task - tasks), next = goes_on ? (size_t)(record->other - tasks) : 0;
    if (record->seen > entries || (makes_entry(record) && record->seen != entries)) return false;
    if (is_begin && record->region && !is_begun[record->region]) return false;
    if (!is_begin && !is_made[task]) return false;
    if (record->kind == ompt_task_early_fulfill && is_done[task]) return false;
    return !goes_on || (is_made[next] && ended[next] == record->turns.next);
}

/* The same; from here on the record is out. */
static bool comes_in_order(const struct record *record) {
    size_t task = (size_t)(record->task - tasks);
    bool is_right = is_in_order(record);
    if (record->callback == TASK_CREATE) is_made[record->other - tasks] = true;
    if (record->callback == IMPLICIT_TASK) is_made[task] = true;
    if (record->callback == PARALLEL_BEGIN) is_begun[record->region] = true;
    if (record->callback == TASK_SCHEDULE && record->other) ended[task] = record->turns.prior + 1;
    is_done[task] |= makes_entry(record);
    entries += makes_entry(record);
    return is_right;
}

/* Whether all records come in an order of time. */
static bool is_order(void) {
    int thread;
    bool is_right = true;
    begin_check();
    begin_pass();
    for (const struct record *record; (record = next_in_time(&thread));) is_right &= comes_in_order(record);
    return is_right;
}

/* Shows so many records of each thread as it has where it is looked at: from this time on, by one thread after another,
   between which so many records are added. */
static void show_until(int count, uint32_t time, uint32_t step, uint32_t *times) {
    for (int i = 0; i < count; i++, time += step)
        for (; times[i] < time && times[i] < history_length; times[i]++) all[i].count += history[times[i]] == i;
}

/* Whether all records come in an order of time while the run goes on. Others are added between two looks too. */
static bool is_order_in_parts(int count) {
    uint32_t times[MOST_IN_PARTS] = {0}, time = 0, total = 0, step = drawn(30);
    int thread;
    bool is_right = true;
    begin_check();
    begin_parts();
    for (int i = 0; i < count; i++) all[i].count = 0;
    for (bool is_last = false; !is_last; time += (uint32_t)count * step + drawn(20)) {
        show_until(count, time, step, times);
        is_last = !look_again() && time >= history_length;
        for (const struct record *record; (record = next_so_far(&thread)); total++) is_right &= comes_in_order(record);
    }
    end_parts();
    for (const struct record *record; (record = next_in_time(&thread)); total++) is_right &= comes_in_order(record);
    return is_right && total == history_length;
}

/* Whether each record comes once in each of two passes, in the order of its thread, and in the same order. */
static bool is_whole(int count) {
    static uint8_t order[MOST_RECORDS];
    uint32_t total = 0, places[MAX_THREADS];
    bool is_right = true;
    for (int i = 0; i < count; i++) total += all[i].count;
    for (int pass = 0; pass < 2; pass++) {
        uint32_t at = 0;
        int thread;
        memset(places, 0, sizeof places);
        begin_pass();
        for (const struct record *record; (record = next_in_time(&thread)); at++) {
            is_right &= at < total && record == record_at(&all[thread], places[thread]++);
            is_right &= pass == 0 || order[at] == thread;
            order[at] = (uint8_t)thread;
        }
        is_right &= at == total;
    }
    return is_right;
}

static void prepare(void) {
    for (uint32_t i = 0; i < task_count; i++) tasks[i].made_in = 0;
    take_totals();
}

int main(int words, char **given) {
    int runs = words > 1 ? atoi(given[1]) : RUNS, failed = 0;
    for (int i = 0; i < runs; i++) {
        int count = i % 5 == 4 ? MAX_THREADS : 1 + (int)drawn(12);
        run(count, drawn(MOST_STEPS));
        prepare();
        bool is_right = count > MOST_IN_PARTS || is_order_in_parts(count);
        prepare();
        is_right &= is_order() && is_whole(count);
        cut(count);
        prepare();
        is_right &= is_whole(count);
        spoil(count);
        prepare();
        is_right &= is_whole(count);
        failed += !is_right;
    }
    printf("%d passed, %d failed\n", runs - failed, failed);
    return failed > 0;
}
