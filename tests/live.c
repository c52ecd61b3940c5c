/* live THREADS REGIONS STEPS [LOST]: makes the callbacks of a run on real threads, for the recorder alone, so that a checker of
   races sees all of it. In each region every member creates so many tasks and takes tasks from the pool of all: they have
   children, dependences and events, stop, and go on on other threads. All are complete at the region's end. So many
   stops of tasks are not told. It is built with the recorder's sources; the environment says where the file goes. */
#define _GNU_SOURCE
#include "callbacks.h"
#include "tool.h"

#include <omp-tools.h>
#include <pthread.h>
#include <stdatomic.h>
#include <stdbool.h>
#include <stdint.h>
#include <stdlib.h>
#include <string.h>

enum { MOST_DEPTH = 3, MOST_THREADS = 64 };

/* A task in the pool: to start, to go on, or whose event is to be fulfilled. */
struct item {
    struct item *next;
    ompt_data_t task;
    int depth;
    bool has_stopped, has_ended;
};

static struct item *pool;
static pthread_mutex_t lock = PTHREAD_MUTEX_INITIALIZER;
static pthread_barrier_t meeting;
static _Atomic int unfinished;
static int thread_count, region_count, step_count;
static _Atomic int lost;
static ompt_data_t region;

struct member {
    ompt_data_t *running;
    uint64_t random;
};

static uint32_t drawn(struct member *self, uint32_t below) {
    self->random ^= self->random << 13;
    self->random ^= self->random >> 7;
    self->random ^= self->random << 17;
    return (uint32_t)(self->random >> 20) % below;
}

static void push(struct item *item) {
    pthread_mutex_lock(&lock);
    item->next = pool;
    pool = item;
    pthread_mutex_unlock(&lock);
}

static struct item *pop(void) {
    pthread_mutex_lock(&lock);
    struct item *found = pool;
    if (found) pool = found->next;
    pthread_mutex_unlock(&lock);
    return found;
}

static void create(struct member *self, int depth) {
    struct item *made = calloc(1, sizeof *made);
    bool has_list = drawn(self, 4) == 0;
    made->depth = depth;
    atomic_fetch_add(&unfinished, 1);
    on_task_create(self->running, NULL, &made->task, ompt_task_explicit | ompt_task_untied, has_list, NULL);
    /* of other tasks no item has the same address; and a list that is promised may not come */
    ompt_dependence_t items[] = {{{.ptr = made}, ompt_dependence_type_inout}, {{.ptr = &made->depth}, ompt_dependence_type_in}};
    if (has_list && drawn(self, 8)) on_dependences(&made->task, items, 2);
    push(made);
}

static void finish(struct item *item) {
    free(item);
    atomic_fetch_sub(&unfinished, 1);
}

/* Runs the task until it stops, or ends. */
static void run(struct member *self, struct item *item) {
    ompt_data_t *below = self->running;
    on_task_schedule(below, ompt_task_switch, &item->task);
    self->running = &item->task;
    for (uint32_t children = item->depth < MOST_DEPTH ? drawn(self, 3) : 0; children; children--) create(self, item->depth + 1);
    self->running = below;
    if (!item->has_stopped && drawn(self, 3) == 0) {
        item->has_stopped = true;
        if (atomic_fetch_sub(&lost, 1) <= 0) on_task_schedule(&item->task, ompt_task_switch, below);
        push(item);
    } else if (drawn(self, 5) == 0) {
        item->has_ended = true;
        on_task_schedule(&item->task, ompt_task_detach, below);
        push(item);
    } else {
        on_task_schedule(&item->task, ompt_task_complete, below);
        finish(item);
    }
}

/* Does one thing of the pool, if it has one. */
static void work(struct member *self) {
    struct item *item = pop();
    if (!item) return;
    if (!item->has_ended) {
        run(self, item);
        return;
    }
    on_task_schedule(&item->task, ompt_task_late_fulfill, NULL);
    finish(item);
}

static void run_member(struct member *self, int index) {
    ompt_data_t task = {0}, *below = self->running;
    on_implicit_task(ompt_scope_begin, &region, &task, (unsigned)thread_count, (unsigned)index, ompt_task_implicit);
    self->running = &task;
    for (int i = 0; i < step_count; i++) {
        create(self, 0);
        work(self);
    }
    on_sync_region(ompt_sync_region_barrier_implicit_parallel, ompt_scope_begin, &region, &task, NULL);
    pthread_barrier_wait(&meeting);
    while (atomic_load(&unfinished)) work(self);
    on_sync_region(ompt_sync_region_barrier_implicit_parallel, ompt_scope_end, NULL, &task, NULL);
    on_implicit_task(ompt_scope_end, NULL, &task, 0, (unsigned)index, ompt_task_implicit);
    self->running = below;
}

static void *run_thread(void *index) {
    struct member self = {.random = 88172645463325252 + 977 * (uint64_t)(intptr_t)index};
    on_thread_begin(ompt_thread_worker, NULL);
    for (int i = 0; i < region_count; i++) {
        pthread_barrier_wait(&meeting);
        run_member(&self, (int)(intptr_t)index);
        pthread_barrier_wait(&meeting);
    }
    on_thread_end(NULL);
    return NULL;
}

static void run_regions(ompt_data_t *initial) {
    struct member self = {.running = initial, .random = 88172645463325252};
    for (int i = 0; i < region_count; i++) {
        region.value = 0;
        on_parallel_begin(initial, NULL, &region, (unsigned)thread_count, 0, NULL);
        pthread_barrier_wait(&meeting);
        run_member(&self, 0);
        pthread_barrier_wait(&meeting);
        on_parallel_end(&region, initial, 0, NULL);
    }
}

static int set(ompt_callbacks_t event, ompt_callback_t call) {
    (void)event, (void)call;
    return ompt_set_always;
}

static ompt_interface_fn_t look_up(const char *name) {
    return strcmp(name, "ompt_set_callback") == 0 ? (ompt_interface_fn_t)set : NULL;
}

int main(int count, char **words) {
    if (count < 4) return 2;
    thread_count = atoi(words[1]), region_count = atoi(words[2]), step_count = atoi(words[3]);
    lost = count > 4 ? atoi(words[4]) : 0;
    ompt_start_tool_result_t *tool = start_recorder();
    if (!tool || thread_count < 1 || thread_count > MOST_THREADS) return 2;
    pthread_t threads[MOST_THREADS];
    ompt_data_t initial = {0};
    pthread_barrier_init(&meeting, NULL, (unsigned)thread_count);
    tool->initialize(look_up, 0, NULL);
    on_thread_begin(ompt_thread_initial, NULL);
    on_implicit_task(ompt_scope_begin, NULL, &initial, 1, 1, ompt_task_initial);
    for (intptr_t i = 1; i < thread_count; i++) pthread_create(&threads[i], NULL, run_thread, (void *)i);
    run_regions(&initial);
    for (int i = 1; i < thread_count; i++) pthread_join(threads[i], NULL);
    on_implicit_task(ompt_scope_end, NULL, &initial, 0, 1, ompt_task_initial);
    tool->finalize(NULL);
    return 0;
}
