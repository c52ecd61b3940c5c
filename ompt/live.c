/* A file that is written while the program runs, so that a run of any length is recorded in bounded memory. A thread of
   the recorder's own writes the records of all threads as far as their order of time is known (merging.c), and gives
   back the blocks that are written, and the memory of tasks that no later record names. The threads of the program take
   and give no lock: each adds to its own block, and where that is full it takes another one. Where the blocks have as
   much memory as they may, a thread waits there until the writer has written one. */
#define _GNU_SOURCE
#include "recorder.h"

#include <omp-tools.h>
#include <pthread.h>
#include <sched.h>
#include <signal.h>
#include <string.h>
#include <sys/mman.h>
#include <time.h>

/* How much memory blocks may have, while the writer can go on (tests choose less); and how many there may be in any
   case. */
#ifndef MOST_MEMORY
#define MOST_MEMORY (64 << 20)
#endif
enum { MOST_BLOCKS = 1 << 17 };
/* How many records a thread, and how many finished tasks a run may have: a file has numbers below 2^32. */
static const uint32_t last_count = UINT32_MAX - (1u << 20);
/* How long a thread sleeps until it looks again whether there is room, and the writer whether there are records: first,
   and after how many times so long as it ever does. In nanoseconds. */
enum { NAP = 100000, DOUBLINGS = 6 };
/* How often the writer must find nothing before more room is given; and how many records it takes to look again at once.
   Each look slows the threads a little. */
enum { STUCK = 4, MANY = 4096 };
/* How many times as much as blocks may have, before the writer takes a record as lost. */
enum { LOST = 8 };

/* Blocks */

/* A block of records; or in its place a block of lists. */
struct live_block {
    uint32_t number;              /* from 1 */
    _Atomic uint32_t next_unused;
    struct live_block *lists;     /* the lists of its records; and of a block of lists the one before */
    uint32_t items;               /* how many items a block of lists has */
    struct block block;
};
enum { ITEMS_OF_BLOCK = sizeof(struct block) / sizeof(struct dependence) };

static struct live_block *blocks[MOST_BLOCKS + 1];
static _Atomic uint32_t made_count;
/* The number of the first unused block, or 0; and in the upper half how often that changed, so that a thread sees when it
   was another one meanwhile. */
static _Atomic uint64_t first_unused;
/* How many blocks are in use, how many may be, and how many were at most. */
static _Atomic uint32_t used, allowed, most_used;
static _Atomic uint32_t waiting;
static _Atomic uint64_t wait_count, wait_time;

static size_t size_of_block(void) {
    return sizeof(struct live_block) + (settings.has_times ? RECORDS_OF_BLOCK * sizeof(uint64_t) : 0);
}

static uint32_t limit(void) {
    return (uint32_t)(MOST_MEMORY / size_of_block());
}

static struct live_block *live_block_of(struct block *block) {
    return (struct live_block *)((char *)block - offsetof(struct live_block, block));
}

static uint64_t following(uint64_t was, uint32_t number) {
    return ((was >> 32) + 1) << 32 | number;
}

static struct live_block *unused_block(void) {
    uint64_t was = atomic_load(&first_unused);
    while ((uint32_t)was) {
        struct live_block *found = blocks[(uint32_t)was];
        if (atomic_compare_exchange_weak(&first_unused, &was, following(was, atomic_load(&found->next_unused))))
            return found;
    }
    return NULL;
}

static void give_back(struct live_block *block) {
    uint64_t was = atomic_load(&first_unused);
    do atomic_store(&block->next_unused, (uint32_t)was);
    while (!atomic_compare_exchange_weak(&first_unused, &was, following(was, block->number)));
}

static struct live_block *new_block(void) {
    uint32_t number = atomic_fetch_add(&made_count, 1) + 1;
    if (number > MOST_BLOCKS) return NULL;
    void *made = mmap(NULL, size_of_block(), PROT_READ | PROT_WRITE, MAP_PRIVATE | MAP_ANONYMOUS, -1, 0);
    if (made == MAP_FAILED) return NULL;
    blocks[number] = made;
    blocks[number]->number = number;
    return made;
}

static void nap(long time) {
    nanosleep(&(struct timespec){.tv_nsec = time}, NULL);
}

static uint64_t nanoseconds(void) {
    struct timespec now;
    clock_gettime(CLOCK_MONOTONIC, &now);
    return (uint64_t)now.tv_sec * 1000000000 + (uint64_t)now.tv_nsec;
}

/* Counts one more block as used, where that is allowed. */
static bool claim(void) {
    uint32_t was = atomic_load(&used);
    do if (was >= atomic_load(&allowed)) return false;
    while (!atomic_compare_exchange_weak(&used, &was, was + 1));
    uint32_t most = atomic_load(&most_used);
    while (most <= was && !atomic_compare_exchange_weak(&most_used, &most, was + 1)) continue;
    return true;
}

/* Waits for the writer; returns false if recording is over before there is room. The thread may hold a lock of the
   runtime meanwhile: if the writer can therefore not go on, it gives room. */
static __attribute__((noinline)) bool wait_for_room(void) {
    uint64_t begin = nanoseconds();
    bool is_claimed = false;
    atomic_fetch_add(&waiting, 1);
    while (!is_claimed && is_recording()) {
        nap(NAP);
        is_claimed = claim();
    }
    atomic_fetch_sub(&waiting, 1);
    atomic_fetch_add(&wait_count, 1);
    atomic_fetch_add(&wait_time, nanoseconds() - begin);
    return is_claimed;
}

static struct live_block *take_block(void) {
    if (!claim() && !wait_for_room()) return NULL;
    struct live_block *taken = unused_block();
    if (!taken) taken = new_block();
    if (!taken) {
        stop(NO_MEMORY, NULL);
        return NULL;
    }
    taken->lists = NULL;
    taken->items = 0;
    taken->block.next = NULL;
    return taken;
}

bool add_live_block(struct thread *thread) {
    if (thread->capacity > last_count || entry_count() > last_count) {
        stop(MANY_RECORDS, NULL);
        return false;
    }
    struct live_block *made = take_block();
    if (!made) return false;
    if (thread->last) thread->last->next = &made->block;
    else thread->first = &made->block;
    thread->last = &made->block;
    thread->capacity += RECORDS_OF_BLOCK;
    return true;
}

struct dependence *take_list(struct thread *thread, size_t count) {
    struct live_block *of = live_block_of(thread->last), *lists = of->lists;
    if (!lists || lists->items + count > ITEMS_OF_BLOCK) {
        lists = take_block();
        if (!lists) return NULL;
        lists->lists = of->lists;
        of->lists = lists;
    }
    struct dependence *taken = (struct dependence *)&lists->block + lists->items;
    lists->items += (uint32_t)count;
    return taken;
}

/* Takes back a block that is written, with the lists of its records. */
static void release(struct block *block) {
    struct live_block *next;
    for (struct live_block *it = live_block_of(block); it; it = next) {
        next = it->lists;
        give_back(it);
        atomic_fetch_sub(&used, 1);
    }
    uint32_t now = atomic_load(&used), most = limit();
    if (atomic_load(&allowed) > most) atomic_store(&allowed, now > most ? now : most);
}

/* The writer has written all that it can: what it lacks may come from a thread that waits, or that one keeps from going
   on. So each gets a block. Where much more than allowed is in use, a record seems to be lost, or the runtime is broken. */
static void give_room(void) {
    uint32_t count = atomic_load(&waiting), now = atomic_load(&used);
    if (count && now > LOST * limit()) give_up_waiting();
    if (count) atomic_store(&allowed, now + count);
}

struct waits waits_for_room(void) {
    return (struct waits){atomic_load(&wait_count), atomic_load(&wait_time), atomic_load(&most_used) * size_of_block()};
}

/* Tasks */

/* Of a task that is finished, the next one; in the place of its first member. */
static struct live_task **next_of(struct live_task *task) {
    return (struct live_task **)&task->task.parent;
}

static struct live_task *spare_task(struct thread *thread) {
    if (!thread->spare) thread->spare = atomic_exchange(&thread->returned, NULL);
    struct live_task *found = thread->spare;
    if (!found) return NULL;
    thread->spare = *next_of(found);
    memset(found, 0, sizeof *found);
    return found;
}

static struct live_task *fresh_task(struct thread *thread) {
    if (thread->new_tasks_left == 0) {
        thread->new_tasks = take(thread, TASKS_OF_BLOCK * sizeof *thread->new_tasks);
        if (!thread->new_tasks) return NULL;
        thread->new_tasks_left = TASKS_OF_BLOCK;
    }
    return &thread->new_tasks[TASKS_OF_BLOCK - thread->new_tasks_left--];
}

struct task *new_live_task(struct thread *thread) {
    struct live_task *made = spare_task(thread);
    if (!made) made = fresh_task(thread);
    if (!made) {
        stop(NO_MEMORY, NULL);
        return NULL;
    }
    made->task.root = &made->task;
    made->task.thread = -1;
    return &made->task;
}

/* A task needs its memory until its body has ended and its event is fulfilled, and while a child needs its own, since the
   claim of that names it. Of a task that was discarded the runtime tells once more: it keeps its memory. */

/* Lets go of the task; where nothing holds it any more, its thread may use it again, and its parent is let go of. */
static void let_go(struct live_task *task, uint32_t count) {
    for (;; count = 1) {
        struct live_task *parent = task->task.root == &task->task ? NULL : (struct live_task *)task->task.parent;
        if (task->holders < count) return; /* it was finished before: the runtime is broken */
        task->holders -= count;
        if (task->holders) return;
        struct live_task *_Atomic *returned = &threads[task->maker]->returned, *was = atomic_load(returned);
        do *next_of(task) = was;
        while (!atomic_compare_exchange_weak(returned, &was, task));
        if (!parent) return;
        task = parent;
    }
}

/* By how much the record finishes its task. */
static uint32_t finished_part(const struct record *record) {
    if (record->callback == IMPLICIT_TASK) return record->endpoint == ompt_scope_end ? 2 : 0;
    if (record->callback != TASK_SCHEDULE || !makes_entry(record)) return 0;
    return record->kind == ompt_task_detach || record->kind == ompt_task_late_fulfill ? 1 : 2;
}

static void begin_task(struct task *task, int maker) {
    struct live_task *made = (struct live_task *)task;
    made->maker = (uint64_t)maker;
    made->holders += 2;
}

/* Sees to the memory of the tasks that the record names, which is written. */
static void pass_record(const struct record *record, int thread) {
    if (record->callback == TASK_CREATE) {
        begin_task(record->other, thread);
        ((struct live_task *)record->task)->holders++;
    } else if (record->callback == IMPLICIT_TASK && record->endpoint == ompt_scope_begin) {
        begin_task(record->task, thread);
    }
    uint32_t part = finished_part(record);
    if (part) let_go((struct live_task *)record->task, part);
}

/* The writer */

static _Atomic bool has_begun, is_asked, is_finished;
static const char *_Atomic how_it_ends;
static const char *fault;
/* The block in which each thread's last record is that was written. */
static struct block *written_in[MAX_THREADS];

/* Where the file cannot be written, recording ends. */
static void look_at_fault(const char *found) {
    if (!found || fault) return;
    fault = found;
    end_recording();
}

static void write_one(const struct record *record, int thread) {
    struct block *block = (struct block *)cursors[thread].block, *was = written_in[thread];
    look_at_fault(write_record(record, thread));
    pass_record(record, thread);
    written_in[thread] = block;
    if (was && was != block) release(was);
}

/* Writes what may come next, and adds how many records that were; returns whether there is more by now. */
static bool write_so_far(uint64_t *count) {
    int thread;
    for (const struct record *record; (record = next_so_far(&thread)); ++*count) write_one(record, thread);
    return look_again();
}

/* What is left when no thread adds a record. */
static void write_rest(void) {
    int thread;
    uint64_t count = 0;
    while (write_so_far(&count)) continue;
    end_parts();
    for (const struct record *record; (record = next_in_time(&thread));) write_one(record, thread);
    look_at_fault(end_records());
    close_live_file(how_it_ends, fault);
}

static void begin_live(void) {
    begin_parts();
    look_at_fault(begin_records(live_file()));
}

static void *write_live(void *unused) {
    int idle = 0;
    (void)unused;
    begin_live();
    while (!atomic_load(&is_asked)) {
        uint64_t count = 0;
        bool is_more = write_so_far(&count);
        if (count >= MANY) continue;
        idle = count || is_more ? 0 : idle + (idle < DOUBLINGS);
        if (idle) look_at_fault(flush_records());
        if (idle >= STUCK) give_room();
        nap((long)NAP << idle);
    }
    write_rest();
    atomic_store(&is_finished, true);
    return NULL;
}

/* Makes the thread, which gets no signal: those are the program's. */
static bool make_writer(void) {
    pthread_t made;
    pthread_attr_t small;
    sigset_t all, was;
    sigfillset(&all);
    pthread_attr_init(&small);
    pthread_attr_setdetachstate(&small, PTHREAD_CREATE_DETACHED);
    pthread_attr_setstacksize(&small, 1 << 18);
    pthread_sigmask(SIG_SETMASK, &all, &was);
    bool is_made = pthread_create(&made, &small, write_live, NULL) == 0;
    pthread_sigmask(SIG_SETMASK, &was, NULL);
    pthread_attr_destroy(&small);
    return is_made;
}

bool begin_writing(void) {
    uint32_t none = 0;
    atomic_compare_exchange_strong(&allowed, &none, limit());
    if (atomic_exchange(&has_begun, true) || make_writer()) return true;
    fail_live_file("no thread could be made that writes it");
    return false;
}

/* Without a callback there is no thread that writes. */
void finish_writing(const char *ending) {
    how_it_ends = ending;
    atomic_store(&is_asked, true);
    if (!atomic_exchange(&has_begun, true)) {
        begin_live();
        write_rest();
        return;
    }
    while (!atomic_load(&is_finished)) nap(NAP);
}

/* Another process has the blocks, and the thread that writes. */
void forget_writing(void) {
    has_begun = is_asked = is_finished = false;
    made_count = used = allowed = most_used = waiting = 0;
    first_unused = wait_count = wait_time = 0;
    fault = NULL;
    memset(written_in, 0, sizeof written_in);
    forget_written();
    forget_teams();
}
