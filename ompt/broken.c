/* A library that breaks LLVM's OpenMP runtime on purpose, to see that the audit notices: preloaded, it breaks what
   TASKAUDIT_BREAK names, with commas between, in all teams alike. The tool of the run, which it loads itself, gets exactly
   the callbacks of the right runtime.

   taskwait, taskgroup, barrier    wait for no task
   brief_taskwait, brief_barrier   run one task at most, and wait for no other
   depend                          tasks have no dependences
   one_depend                      of a list of several dependences the first is dropped
   taskwait_depend                 a taskwait with dependences waits for no task
   early_detach                    a detached task is complete where its body ends */
#define _GNU_SOURCE
#include "breaking.h"
#include "recorder.h"

#include <dlfcn.h>
#include <omp-tools.h>
#include <pthread.h>
#include <stdio.h>
#include <stdlib.h>
#include <string.h>

/* The tool's callbacks, as it registers them. */
static ompt_callback_sync_region_t tool_sync_region;
static ompt_callback_task_create_t tool_task_create;
static ompt_callback_dependences_t tool_dependences;
static ompt_callback_task_schedule_t tool_task_schedule;

static ompt_set_callback_t runtime_set_callback;
static ompt_get_task_info_t runtime_task_info;
static ompt_get_parallel_info_t runtime_parallel_info;
static ompt_function_lookup_t runtime_lookup;

static void *original(const char *name) {
    return dlsym(RTLD_NEXT, name);
}

/* Where a construct is in the program, as compiled code passes it. */
struct location {
    int32_t reserved, flags;
};
enum { IS_EXPLICIT_BARRIER = 0x20 };

/* Waits */

/* A wait that does not wait, as the tool sees it. */
static void tell_wait(ompt_sync_region_t kind, ompt_scope_endpoint_t endpoint, const void *code) {
    ompt_data_t *task = NULL, *region = NULL;
    if (!tool_sync_region || runtime_task_info(0, NULL, &task, NULL, &region, NULL) != 2) return;
    tool_sync_region(kind, endpoint, region, task, code);
}

/* Runs one of the team's tasks, if there is one that waits. */
static void run_one_task(void *location, int thread) {
    ((int (*)(void *, int, int))original("__kmpc_omp_taskyield"))(location, thread, 0);
}

int __kmpc_omp_taskwait(void *location, int thread) {
    bool is_brief = breaks("brief_taskwait");
    if (!is_brief && !breaks("taskwait"))
        return ((int (*)(void *, int))original("__kmpc_omp_taskwait"))(location, thread);
    tell_wait(ompt_sync_region_taskwait, ompt_scope_begin, __builtin_return_address(0));
    if (is_brief) run_one_task(location, thread);
    tell_wait(ompt_sync_region_taskwait, ompt_scope_end, __builtin_return_address(0));
    return 0;
}

void __kmpc_taskgroup(void *location, int thread) {
    if (!breaks("taskgroup")) ((void (*)(void *, int))original("__kmpc_taskgroup"))(location, thread);
    else tell_wait(ompt_sync_region_taskgroup, ompt_scope_begin, __builtin_return_address(0));
}

void __kmpc_end_taskgroup(void *location, int thread) {
    if (!breaks("taskgroup")) ((void (*)(void *, int))original("__kmpc_end_taskgroup"))(location, thread);
    else tell_wait(ompt_sync_region_taskgroup, ompt_scope_end, __builtin_return_address(0));
}

/* Where the members of a team meet, which the address of the region's data tells from the teams that run beside it. */
static struct meeting {
    const void *region;
    struct arrivals arrivals;
} meetings[1 << 10];

static struct meeting *meeting_of(const void *region) {
    struct meeting *at = meetings, *end = meetings + sizeof meetings / sizeof *meetings;
    while (at < end && at->region && at->region != region) at++;
    if (at == end) abort();
    at->region = region;
    return at;
}

/* Waits until all members of the team are here, and for no task. */
static void meet(void) {
    ompt_data_t *region = NULL;
    int size = 1;
    if (!runtime_parallel_info || runtime_parallel_info(0, &region, &size) != 2 || size == 1) return;
    pthread_mutex_lock(&meeting);
    await_all(&meeting_of(region)->arrivals, size);
    pthread_mutex_unlock(&meeting);
}

void __kmpc_barrier(struct location *location, int thread) {
    bool is_brief = breaks("brief_barrier"), is_explicit = location && location->flags & IS_EXPLICIT_BARRIER;
    if (!is_brief && !breaks("barrier")) {
        ((void (*)(void *, int))original("__kmpc_barrier"))(location, thread);
        return;
    }
    ompt_sync_region_t kind = is_explicit ? ompt_sync_region_barrier_explicit : ompt_sync_region_barrier_implicit;
    tell_wait(kind, ompt_scope_begin, __builtin_return_address(0));
    if (is_brief) run_one_task(location, thread);
    meet();
    tell_wait(kind, ompt_scope_end, __builtin_return_address(0));
}

/* Dependences */

/* An item of a list of dependences, as compiled code passes it. */
struct item {
    intptr_t address;
    size_t size;
    uint8_t flags;
};

/* The list of the task that this thread is about to create, and from where; the runtime does not get all of it. */
static __thread const struct item *items;
static __thread int item_count;
static __thread const void *caller;
/* The task whose whole list the tool has, where the runtime tells of the rest of it. */
static __thread ompt_data_t *listed;

static ompt_dependence_type_t type_of(uint8_t flags) {
    if (flags & 4) return ompt_dependence_type_mutexinoutset;
    return flags & 2 ? flags & 1 ? ompt_dependence_type_inout : ompt_dependence_type_out : ompt_dependence_type_in;
}

static void tell_list(ompt_data_t *task, const struct item *from, int count) {
    ompt_dependence_t *list = tool_dependences ? calloc((size_t)count, sizeof *list) : NULL;
    if (!list) return;
    for (int i = 0; i < count; i++) {
        list[i].variable.value = (uint64_t)from[i].address;
        list[i].dependence_type = type_of(from[i].flags);
    }
    tool_dependences(task, list, count);
    free(list);
}

static void on_dependences(ompt_data_t *task, const ompt_dependence_t *list, int count) {
    if (task != listed) tool_dependences(task, list, count);
    listed = NULL;
}

int __kmpc_omp_task_with_deps(void *location, int thread, void *task, int count, struct item *list, int more_count,
                              struct item *more) {
    int (*call)(void *, int, void *, int, struct item *, int, struct item *) = original("__kmpc_omp_task_with_deps");
    bool drops_all = breaks("depend"), drops_one = breaks("one_depend") && count > 1;
    if (!drops_all && !drops_one) return call(location, thread, task, count, list, more_count, more);
    items = list;
    item_count = count;
    caller = __builtin_return_address(0);
    if (drops_all) return call(location, thread, task, 0, NULL, 0, NULL);
    return call(location, thread, task, count - 1, list + 1, more_count, more);
}

/* A taskwait with dependences that waits for nothing, as the tool sees it. */
static void tell_taskwait(const struct item *list, int count, const void *code) {
    ompt_data_t *creator = NULL, taskwait = {0};
    ompt_frame_t *frame = NULL;
    if (!tool_task_create || !tool_task_schedule) return;
    if (runtime_task_info(0, NULL, &creator, &frame, NULL, NULL) != 2) return;
    int flags = ompt_task_taskwait | ompt_task_undeferred | ompt_task_mergeable;
    tool_task_create(creator, frame, &taskwait, flags, 1, code);
    tell_list(&taskwait, list, count);
    tool_task_schedule(&taskwait, ompt_taskwait_complete, NULL);
}

void __kmpc_omp_wait_deps(void *location, int thread, int count, struct item *list, int more_count, struct item *more) {
    void (*call)(void *, int, int, struct item *, int, struct item *) = original("__kmpc_omp_wait_deps");
    if (breaks("taskwait_depend")) tell_taskwait(list, count, __builtin_return_address(0));
    else call(location, thread, count, list, more_count, more);
}

/* What newer compilers call. */
void __kmpc_omp_taskwait_deps_51(void *location, int thread, int count, struct item *list, int more_count,
                                 struct item *more, int has_nowait) {
    void (*call)(void *, int, int, struct item *, int, struct item *, int) = original("__kmpc_omp_taskwait_deps_51");
    if (breaks("taskwait_depend")) tell_taskwait(list, count, __builtin_return_address(0));
    else call(location, thread, count, list, more_count, more, has_nowait);
}

/* Detached tasks */

/* The event of a task; the program gets the address of this one. For the runtime the event is fulfilled when it is made,
   so that the task is complete when its body ends. */
struct event {
    struct event *next;      /* among those whose tasks' bodies have not ended */
    ompt_data_t *task;       /* the task's, and when its body has ended a copy */
    ompt_data_t copy;
    bool has_ended, is_fulfilled;
};
static struct event *running;
static pthread_mutex_t detaching = PTHREAD_MUTEX_INITIALIZER;
/* The event of the task that this thread is about to create, and whether the runtime tells that it is fulfilled. */
static __thread struct event *made;
static __thread bool is_hidden;

void *__kmpc_task_allow_completion_event(void *location, int thread, void *task) {
    void *event = ((void *(*)(void *, int, void *))original("__kmpc_task_allow_completion_event"))(location, thread, task);
    if (!breaks("early_detach")) return event;
    is_hidden = true;
    ((void (*)(void *))original("omp_fulfill_event"))(event);
    is_hidden = false;
    return made = calloc(1, sizeof *made);
}

void omp_fulfill_event(struct event *event) {
    if (!breaks("early_detach")) {
        ((void (*)(void *))original("omp_fulfill_event"))(event);
        return;
    }
    pthread_mutex_lock(&detaching);
    event->is_fulfilled = true;
    if (event->task) tool_task_schedule(event->task, event->has_ended ? ompt_task_late_fulfill : ompt_task_early_fulfill, NULL);
    pthread_mutex_unlock(&detaching);
}

static void add_event(ompt_data_t *task) {
    pthread_mutex_lock(&detaching);
    made->task = task;
    made->next = running;
    running = made;
    made = NULL;
    pthread_mutex_unlock(&detaching);
}

/* Returns how the body of this task ends: it is detached where the program has not fulfilled its event. */
static ompt_task_status_t ended(ompt_data_t *task) {
    struct event **at = &running;
    while (*at && (*at)->task != task) at = &(*at)->next;
    struct event *event = *at;
    if (!event) return ompt_task_complete;
    *at = event->next;
    event->has_ended = true;
    event->copy = *task;
    event->task = &event->copy;
    return event->is_fulfilled ? ompt_task_complete : ompt_task_detach;
}

static void on_task_schedule(ompt_data_t *prior, ompt_task_status_t status, ompt_data_t *next) {
    if (is_hidden && status == ompt_task_early_fulfill) return;
    pthread_mutex_lock(&detaching);
    tool_task_schedule(prior, status == ompt_task_complete ? ended(prior) : status, next);
    pthread_mutex_unlock(&detaching);
}

static void on_task_create(ompt_data_t *creator, const ompt_frame_t *frame, ompt_data_t *task, int flags, int has_list,
                           const void *code) {
    int count = item_count;
    item_count = 0;
    if (made) add_event(task);
    tool_task_create(creator, frame, task, flags, has_list || count, count ? caller : code);
    if (!count) return;
    tell_list(task, items, count);
    listed = has_list ? task : NULL;
}

/* Which task of the file has which number in the program: a line for each in the file that TASKAUDIT_NUMBERS names. */

enum { MOST_NUMBERS = 64 };
static struct task *numbered[MOST_NUMBERS];

void taskaudit_is_task(int number) {
    ompt_data_t *task = NULL;
    if (number < 0 || number >= MOST_NUMBERS || !runtime_task_info) return;
    if (runtime_task_info(0, NULL, &task, NULL, NULL, NULL) == 2 && task) numbered[number] = task->ptr;
}

/* The recorder gives the ids when it writes its file, and keeps its tasks. */
static void write_numbers(void) {
    const char *name = getenv("TASKAUDIT_NUMBERS");
    FILE *file = name ? fopen(name, "w") : NULL;
    if (!file) return;
    for (int number = 0; number < MOST_NUMBERS; number++)
        if (numbered[number]) fprintf(file, "%d %llu\n", number, (unsigned long long)numbered[number]->id);
    fclose(file);
}

/* The tool; this library is between it and the runtime */

static ompt_set_result_t set_callback(ompt_callbacks_t event, ompt_callback_t call) {
    if (event == ompt_callback_sync_region) tool_sync_region = (ompt_callback_sync_region_t)call;
    if (event == ompt_callback_dependences) {
        tool_dependences = (ompt_callback_dependences_t)call;
        call = (ompt_callback_t)on_dependences;
    }
    if (event == ompt_callback_task_create) {
        tool_task_create = (ompt_callback_task_create_t)call;
        call = (ompt_callback_t)on_task_create;
    }
    if (event == ompt_callback_task_schedule) {
        tool_task_schedule = (ompt_callback_task_schedule_t)call;
        if (breaks("early_detach")) call = (ompt_callback_t)on_task_schedule;
    }
    return runtime_set_callback(event, call);
}

static ompt_interface_fn_t lookup(const char *name) {
    if (strcmp(name, "ompt_set_callback") == 0) return (ompt_interface_fn_t)set_callback;
    return runtime_lookup(name);
}

static ompt_start_tool_result_t *tool;

static int initialize(ompt_function_lookup_t of_runtime, int device, ompt_data_t *data) {
    runtime_lookup = of_runtime;
    runtime_set_callback = (ompt_set_callback_t)of_runtime("ompt_set_callback");
    runtime_task_info = (ompt_get_task_info_t)of_runtime("ompt_get_task_info");
    runtime_parallel_info = (ompt_get_parallel_info_t)of_runtime("ompt_get_parallel_info");
    return tool->initialize(lookup, device, data);
}

static void finalize(ompt_data_t *data) {
    tool->finalize(data);
    write_numbers();
}

ompt_start_tool_result_t *ompt_start_tool(unsigned int version, const char *runtime) {
    static ompt_start_tool_result_t result = {initialize, finalize, {0}};
    const char *name = getenv("OMP_TOOL_LIBRARIES");
    void *library = name ? dlopen(name, RTLD_NOW) : NULL;
    ompt_start_tool_result_t *(*start)(unsigned int, const char *) =
        library ? (ompt_start_tool_result_t * (*)(unsigned int, const char *)) dlsym(library, "ompt_start_tool") : NULL;
    tool = start ? start(version, runtime) : NULL;
    return tool ? &result : NULL;
}
