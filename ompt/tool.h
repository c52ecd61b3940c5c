/* The recorder as a tool of OMPT. */
#ifndef TASKAUDIT_TOOL_H
#define TASKAUDIT_TOOL_H

#include <omp-tools.h>

/* Returns the recorder, or NULL where nothing is to be recorded. */
ompt_start_tool_result_t *start_recorder(void);

/* The runtime's way to it. */
__attribute__((visibility("default"))) ompt_start_tool_result_t *ompt_start_tool(unsigned int version,
                                                                                 const char *runtime);

#endif
