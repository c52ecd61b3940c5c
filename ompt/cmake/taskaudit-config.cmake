# Tests of ctest under taskaudit-run. find_package(taskaudit) finds this file where it is installed; in a checkout
# taskaudit_DIR names its folder.
#
#   taskaudit_test(NAME TARGET [ARGS..])
#
# adds the test NAME, which runs the program TARGET with these words under taskaudit-run. Its recording is the file
# NAME.jsonl in the folder TASKAUDIT_FOLDER. All tests with the program TARGET run under taskaudit-run, also those that
# add_test adds. TASKAUDIT_OPTIONS is a list of options for taskaudit-run; docs/SUITES.md has more.

find_program(TASKAUDIT_RUN taskaudit-run HINTS "${CMAKE_CURRENT_LIST_DIR}/.." "${CMAKE_CURRENT_LIST_DIR}/../../../bin")
if(NOT TASKAUDIT_RUN)
    set(taskaudit_FOUND FALSE)
    set(taskaudit_NOT_FOUND_MESSAGE "there is no taskaudit-run")
    return()
endif()
set(TASKAUDIT_FOLDER "${CMAKE_BINARY_DIR}/taskaudit" CACHE PATH "Where recordings of tests go")
set(TASKAUDIT_OPTIONS "" CACHE STRING "Options of taskaudit-run")

# Stands taskaudit-run in front of a program where tests run it, and before what stands there already.
function(taskaudit_stand_before target)
    # from 3.29 on an emulator is only for programs of another machine
    set(property CROSSCOMPILING_EMULATOR)
    if(NOT CMAKE_VERSION VERSION_LESS 3.29)
        set(property TEST_LAUNCHER)
    endif()
    get_target_property(before ${target} ${property})
    if(NOT before)
        set(before)
    endif()
    if(NOT TASKAUDIT_RUN IN_LIST before)
        set_property(TARGET ${target} PROPERTY ${property} ${TASKAUDIT_RUN} ${TASKAUDIT_OPTIONS} ${before})
    endif()
endfunction()

function(taskaudit_test name target)
    if(NOT TARGET ${target})
        message(FATAL_ERROR "taskaudit_test(${name} ${target}): ${target} is no target")
    endif()
    taskaudit_stand_before(${target})
    file(MAKE_DIRECTORY "${TASKAUDIT_FOLDER}")
    # a % in TASKAUDIT_FILE stands for something else
    string(REPLACE "%" "%%" file "${TASKAUDIT_FOLDER}")
    string(REGEX REPLACE "[/%]" "_" part "${name}")
    add_test(NAME "${name}" COMMAND ${target} ${ARGN})
    set_property(TEST "${name}" APPEND PROPERTY ENVIRONMENT "TASKAUDIT_FILE=${file}/${part}.jsonl")
endfunction()
