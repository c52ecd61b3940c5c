/* The recorder beside another tool, which TASKAUDIT_TOOL_LIBRARIES names as OMP_TOOL_LIBRARIES would: LLVM's header calls
   each callback of both, and keeps the data of both apart. */
#define _GNU_SOURCE
#include "tool.h"

#include <stdio.h>
#include <stdlib.h>

#define CLIENT_TOOL_LIBRARIES_VAR "TASKAUDIT_TOOL_LIBRARIES"
/* Standard output is the program's. */
#define printf(...) fprintf(stderr, __VA_ARGS__)
#pragma GCC diagnostic push
#pragma GCC diagnostic ignored "-Wall"
#pragma GCC diagnostic ignored "-Wextra"
#pragma GCC diagnostic ignored "-Wsign-compare"
#include <ompt-multiplex.h>
#pragma GCC diagnostic pop
#undef printf

static int begin_nothing(ompt_function_lookup_t lookup, int device, ompt_data_t *data) {
    (void)lookup, (void)device, (void)data;
    return 0;
}

static void end_nothing(ompt_data_t *data) {
    (void)data;
}

/* The header wants a tool in any case. */
ompt_start_tool_result_t *ompt_multiplex_own_start_tool(unsigned int version, const char *runtime) {
    (void)version, (void)runtime;
    static ompt_start_tool_result_t none = {begin_nothing, end_nothing, {0}};
    ompt_start_tool_result_t *recorder = start_recorder();
    return recorder ? recorder : &none;
}
