/* A tool of OMPT that keeps data of its own with each task. */
#include <omp-tools.h>
#include <stdatomic.h>
#include <stdio.h>

static atomic_int created, completed;

static void on_create(ompt_data_t *creator, const ompt_frame_t *frame, ompt_data_t *task, int flags, int has_list,
                      const void *code) {
    task->value = 77;
    created++;
}

static void on_schedule(ompt_data_t *prior, ompt_task_status_t status, ompt_data_t *next) {
    if (status == ompt_task_complete && prior->value == 77) completed++;
}

static int initialize(ompt_function_lookup_t lookup, int device, ompt_data_t *data) {
    ompt_set_callback_t set = (ompt_set_callback_t)lookup("ompt_set_callback");
    set(ompt_callback_task_create, (ompt_callback_t)on_create);
    set(ompt_callback_task_schedule, (ompt_callback_t)on_schedule);
    return 1;
}

static void finalize(ompt_data_t *data) {
    fprintf(stderr, "other tool: %d created, %d completed\n", created, completed);
}

ompt_start_tool_result_t *ompt_start_tool(unsigned int version, const char *runtime) {
    static ompt_start_tool_result_t result = {initialize, finalize, {0}};
    return &result;
}
