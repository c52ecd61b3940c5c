/* A runtime that calls the tool as the words of its command line say, in one thread of its own or two in turns: what real
   runtimes do seldom, or only when they are broken. */
#define _GNU_SOURCE
#include <dlfcn.h>
#include <omp-tools.h>
#include <pthread.h>
#include <stdio.h>
#include <stdlib.h>
#include <string.h>

enum { EVENTS = 64, DEEP = 1024 };

static ompt_callback_t calls[EVENTS];

static ompt_set_result_t set_callback(ompt_callbacks_t event, ompt_callback_t call) {
    calls[event] = call;
    return ompt_set_always;
}

static ompt_interface_fn_t lookup(const char *name) {
    return strcmp(name, "ompt_set_callback") == 0 ? (ompt_interface_fn_t)set_callback : NULL;
}

#define CALL(event) ((event##_t)calls[event])

static ompt_data_t program, region, member, other, task, second;

static void begin(ompt_data_t *root, int flags, unsigned int size, unsigned int index) {
    ompt_data_t *of = flags == ompt_task_initial ? NULL : &region;
    CALL(ompt_callback_implicit_task)(ompt_scope_begin, of, root, size, index, flags);
}

static void end(ompt_data_t *root, int flags) {
    CALL(ompt_callback_implicit_task)(ompt_scope_end, NULL, root, 1, 0, flags);
}

static void create(ompt_data_t *creator, ompt_data_t *made, int flags, int has_list) {
    CALL(ompt_callback_task_create)(creator, NULL, made, ompt_task_explicit | flags, has_list, NULL);
}

static void schedule(ompt_data_t *prior, ompt_task_status_t status, ompt_data_t *next) {
    CALL(ompt_callback_task_schedule)(prior, status, next);
}

static void sync(ompt_sync_region_t kind, ompt_scope_endpoint_t endpoint, ompt_data_t *of) {
    CALL(ompt_callback_sync_region)(kind, endpoint, &region, of, NULL);
}

static void list(ompt_data_t *of, int type) {
    ompt_dependence_t item = {.variable.value = 7, .dependence_type = (ompt_dependence_type_t)type};
    CALL(ompt_callback_dependences)(of, &item, 1);
}

static void run_task(void) {
    schedule(&program, ompt_task_switch, &task);
    schedule(&task, ompt_task_complete, &program);
}

/* A second thread of the team, which begins a barrier by a kind of its own and ends it. */
static void *other_member(void *unused) {
    (void)unused;
    begin(&other, ompt_task_implicit, 2, 1);
    sync(ompt_sync_region_barrier, ompt_scope_begin, &other);
    sync(ompt_sync_region_barrier, ompt_scope_end, &other);
    end(&other, ompt_task_implicit);
    return NULL;
}

static void fork_team(void) {
    CALL(ompt_callback_parallel_begin)(&program, NULL, &region, 2, 0, NULL);
    begin(&member, ompt_task_implicit, 2, 0);
}

static void kinds_of_gcc(void) {
    pthread_t thread;
    fork_team();
    sync(ompt_sync_region_barrier_implementation, ompt_scope_begin, &member);
    pthread_create(&thread, NULL, other_member, NULL);
    pthread_join(thread, NULL);
    sync(ompt_sync_region_barrier_implementation, ompt_scope_end, &member);
    end(&member, ompt_task_implicit);
}

/* A chain of tasks as deep as a claim can say, whose last one creates a child in the name of the program. */
static void deep_taskloop(void) {
    static ompt_data_t chain[DEEP + 1];
    ompt_data_t *last = &program;
    for (int i = 0; i < DEEP; i++) {
        create(last, &chain[i], 0, 0);
        schedule(last, ompt_task_switch, &chain[i]);
        last = &chain[i];
    }
    create(&program, &chain[DEEP], 0, 0);
    schedule(last, ompt_task_switch, &chain[DEEP]);
    schedule(&chain[DEEP], ompt_task_complete, last);
}

static void run(const char *word) {
    if (strcmp(word, "finished_twice") == 0) {
        create(&program, &task, 0, 0);
        run_task();
        schedule(&task, ompt_task_complete, &program);
    } else if (strcmp(word, "other_prior") == 0) {
        create(&program, &task, 0, 0);
        create(&program, &second, 0, 0);
        schedule(&task, ompt_task_switch, &second);
    } else if (strcmp(word, "discarded") == 0) {
        create(&program, &task, 0, 0);
        CALL(ompt_callback_cancel)(&task, ompt_cancel_taskgroup | ompt_cancel_discarded_task, NULL);
        schedule(&task, ompt_task_cancel, &program);
    } else if (strcmp(word, "late_list") == 0) {
        create(&program, &task, 0, 1);
        sync(ompt_sync_region_taskwait, ompt_scope_begin, &program);
        list(&task, ompt_dependence_type_in);
    } else if (strcmp(word, "no_list") == 0) {
        create(&program, &task, 0, 1);
        run_task();
    } else if (strcmp(word, "all_memory") == 0) {
        create(&program, &task, 0, 1);
        list(&task, 34);
    } else if (strcmp(word, "unknown") == 0) {
        create(&program, &task, 0x100, 1);
        list(&task, 99);
        sync((ompt_sync_region_t)77, ompt_scope_begin, &program);
        schedule(&program, (ompt_task_status_t)55, &task);
    } else if (strcmp(word, "never_woke") == 0) {
        fork_team();
        create(&member, &task, 0, 0);
    } else if (strcmp(word, "wrong_end") == 0) {
        create(&program, &task, 0, 0);
        schedule(&program, ompt_task_switch, &task);
    } else if (strcmp(word, "kinds_of_gcc") == 0) {
        kinds_of_gcc();
    } else if (strcmp(word, "deep_taskloop") == 0) {
        deep_taskloop();
    }
}

int main(int count, char **words) {
    void *library = dlopen(getenv("OMP_TOOL_LIBRARIES"), RTLD_NOW);
    ompt_start_tool_result_t *(*start)(unsigned int, const char *) =
        library ? (ompt_start_tool_result_t * (*)(unsigned int, const char *)) dlsym(library, "ompt_start_tool") : NULL;
    ompt_start_tool_result_t *tool = start ? start(201811, "calls.c") : NULL;
    if (!tool || count < 2) return 1;
    tool->initialize(lookup, 0, &tool->tool_data);
    begin(&program, ompt_task_initial, 1, 1);
    run(words[1]);
    end(&program, ompt_task_initial);
    tool->finalize(&tool->tool_data);
}
