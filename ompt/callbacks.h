/* The callbacks of the recorder, in the order of OpenMP 5.2, 19.5.2: of OMPT, or called in its place. */
#ifndef TASKAUDIT_CALLBACKS_H
#define TASKAUDIT_CALLBACKS_H

#include <omp-tools.h>

#pragma GCC visibility push(hidden)

void on_thread_begin(ompt_thread_t kind, ompt_data_t *data);
void on_thread_end(ompt_data_t *data);
void on_parallel_begin(ompt_data_t *encountering, const ompt_frame_t *frame, ompt_data_t *region,
                       unsigned int requested, int flags, const void *code);
void on_parallel_end(ompt_data_t *region, ompt_data_t *encountering, int flags, const void *code);
void on_implicit_task(ompt_scope_endpoint_t endpoint, ompt_data_t *region, ompt_data_t *data, unsigned int actual,
                      unsigned int index, int flags);
void on_task_create(ompt_data_t *encountering, const ompt_frame_t *frame, ompt_data_t *data, int flags,
                    int has_dependences, const void *code);
void on_dependences(ompt_data_t *data, const ompt_dependence_t *items, int count);
void on_task_schedule(ompt_data_t *prior, ompt_task_status_t status, ompt_data_t *next);
void on_sync_region(ompt_sync_region_t kind, ompt_scope_endpoint_t endpoint, ompt_data_t *region, ompt_data_t *data,
                    const void *code);
void on_reduction(ompt_sync_region_t kind, ompt_scope_endpoint_t endpoint, ompt_data_t *region, ompt_data_t *data,
                  const void *code);
void on_cancel(ompt_data_t *data, int flags, const void *code);

#pragma GCC visibility pop

#endif
