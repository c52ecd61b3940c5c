/* How a process that is recorded ends: by itself, by exit(), or by a signal, also on several threads at once. Its file
   is written first. In a process that it forks recording begins anew. */
#define _GNU_SOURCE
#include "recorder.h"

#include <pthread.h>
#include <signal.h>
#include <sys/prctl.h>
#include <sys/syscall.h>
#include <time.h>
#include <unistd.h>

static const struct {
    int number;
    bool is_crash; /* of the thread that gets it */
    const char *name;
} signals[] = {
    {SIGABRT, true, "SIGABRT"},  {SIGSEGV, true, "SIGSEGV"},  {SIGBUS, true, "SIGBUS"},    {SIGFPE, true, "SIGFPE"},
    {SIGILL, true, "SIGILL"},    {SIGSYS, true, "SIGSYS"},    {SIGTERM, false, "SIGTERM"}, {SIGINT, false, "SIGINT"},
    {SIGHUP, false, "SIGHUP"},   {SIGQUIT, false, "SIGQUIT"}, {SIGPIPE, false, "SIGPIPE"}, {SIGALRM, false, "SIGALRM"},
    {SIGXCPU, false, "SIGXCPU"}, {SIGUSR1, false, "SIGUSR1"}, {SIGUSR2, false, "SIGUSR2"}};
enum { SIGNALS = sizeof signals / sizeof *signals };

/* How long threads get to leave a callback, and in which time a second signal is the first one once more, since
   `timeout` and others send it to the process and to its group. In milliseconds. */
enum { LEAVING = 20, SAME_SIGNAL = 200 };

/* Who writes the file. */
enum { NOBODY, SOMEBODY, WRITTEN };
static _Atomic int writing;
static _Atomic int writer;
/* The first signal that asked for the end: when, in milliseconds, times SIGNAL_BOUND, and its number; or 0. */
static _Atomic int64_t asked;
enum { SIGNAL_BOUND = 128 };
static pid_t process;         /* that is recorded; none before the first */

static int this_id(void) {
    return (int)syscall(SYS_gettid);
}

static int64_t milliseconds(void) {
    struct timespec now;
    clock_gettime(CLOCK_MONOTONIC, &now);
    return (int64_t)now.tv_sec * 1000 + now.tv_nsec / 1000000;
}

static void nap(int64_t time) {
    nanosleep(&(struct timespec){.tv_nsec = time * 1000000}, NULL);
}

/* Whether this thread is the one that writes the file. The first that asks is. */
static bool is_writer(void) {
    int nobody = NOBODY;
    if (getpid() != process || !atomic_compare_exchange_strong(&writing, &nobody, SOMEBODY)) return false;
    atomic_store(&writer, this_id());
    end_recording();
    return true;
}

static void wait_for_writer(void) {
    while (atomic_load(&writing) == SOMEBODY && atomic_load(&writer) != this_id()) nap(1);
}

/* By a signal */

/* Ends the process as it would end without a recorder. The first process of a container survives that. */
static void die(int number) {
    sigset_t only;
    sigemptyset(&only);
    sigaddset(&only, number);
    signal(number, SIG_DFL);
    raise(number);
    pthread_sigmask(SIG_UNBLOCK, &only, NULL);
    _exit(128 + number);
}

static void stay(int number) {
    (void)number;
    for (;;) pause();
}

/* Holds the other threads where they are, so that none ends the process before the file is written. */
static void hold_others(void) {
    int number = SIGRTMAX - 3;
    sigaction(number, &(struct sigaction){.sa_handler = stay, .sa_flags = SA_ONSTACK}, NULL);
    for (int i = 0; i < MAX_THREADS && i < atomic_load(&thread_count); i++)
        if (threads[i] && threads[i]->id != this_id()) syscall(SYS_tgkill, process, threads[i]->id, number);
}

/* Notes that this signal asked for the end, if it is the first one. */
static bool is_first(int number) {
    int64_t none = 0;
    return atomic_compare_exchange_strong(&asked, &none, milliseconds() * SIGNAL_BOUND + number);
}

/* Whether it is the first one once more. */
static bool is_repeated(void) {
    return milliseconds() - atomic_load(&asked) / SIGNAL_BOUND < SAME_SIGNAL;
}

/* A signal while the file is written, or after that. A thread that crashes meanwhile has to wait. What asks for the end
   waits too, but the second time it gets it. */
static void on_later_signal(int number, bool is_crash) {
    if (getpid() != process || atomic_load(&writing) != SOMEBODY) die(number);
    else if (!is_crash && (is_first(number) || is_repeated())) return;
    else if (!is_crash || atomic_load(&writer) == this_id()) die(number);
    else if (atomic_load(&asked)) stay(number);
    else wait_for_writer(), die(number);
}

static void on_signal(int number) {
    int at = 0;
    while (at + 1 < SIGNALS && signals[at].number != number) at++;
    if (!is_writer()) {
        on_later_signal(number, signals[at].is_crash);
        return;
    }
    is_first(number);
    nap(LEAVING);
    hold_others();
    finish_file(signals[at].name);
    die(number);
}

/* Where a runtime is broken, programs abort: the file is written then, unless the program handles the signal. */
static void catch_signals(void) {
    for (int i = 0; i < SIGNALS; i++) {
        struct sigaction was, ours = {.sa_handler = on_signal, .sa_flags = SA_ONSTACK | SA_NODEFER};
        int number = signals[i].number;
        if (sigaction(number, NULL, &was) == 0 && was.sa_handler == SIG_DFL) sigaction(number, &ours, NULL);
    }
}

void end_process(const char *ending) {
    if (is_writer()) {
        finish_file(ending);
        atomic_store(&writing, WRITTEN);
        if (atomic_load(&asked)) die((int)(atomic_load(&asked) % SIGNAL_BOUND));
    } else if (getpid() == process) {
        wait_for_writer();
    }
}

/* In a forked process */

static void begin_again(void) {
    if (!process) return;
    process = getpid();
    atomic_store(&asked, 0);
    forget_file();
    forget_records();
    atomic_store(&writing, NOBODY);
}

/* A program that taskaudit-run itself started ends with it, even where that is killed. */
static void follow_parent(void) {
    if (settings.parent && settings.parent == getppid()) prctl(PR_SET_PDEATHSIG, SIGTERM);
}

void watch_ending(void) {
    process = getpid();
    follow_parent();
    catch_signals();
    pthread_atfork(NULL, NULL, begin_again);
}

/* exit() inside a task may end the process without the runtime's end. */
__attribute__((destructor)) static void at_exit(void) {
    if (process) end_process("exit");
}
