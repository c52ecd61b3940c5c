/* The file of a process: its name, which TASKAUDIT_FILE gives as a pattern, and what is told of it to taskaudit-run. No
   file that is there is ever replaced, and none is seen before it is whole. What runs at the end of a process calls
   nothing of the C library but system calls. */
#define _GNU_SOURCE
#include "recorder.h"

#include <errno.h>
#include <fcntl.h>
#include <signal.h>
#include <stdio.h>
#include <stdlib.h>
#include <string.h>
#include <sys/stat.h>
#include <sys/syscall.h>
#include <time.h>
#include <unistd.h>

#define DEFAULT_FILE "taskaudit.%n.%p.jsonl"

struct settings settings = {.version = DEFAULT_VERSION};

/* Where an MPI tells a process its rank. */
static const char *const ranks[] = {"OMPI_COMM_WORLD_RANK", "PMIX_RANK", "PMI_RANK", "MV2_COMM_WORLD_RANK",
                                    "SLURM_PROCID"};
enum { RANKS = sizeof ranks / sizeof *ranks, MOST_NAMES = 10000 };

/* The name that the file is to have, and the one that it has until it is whole; that is empty where there is no file. */
static char whole_name[LONGEST_NAME], part_name[LONGEST_NAME];
/* Whether the pattern tells processes apart. */
static bool names_process;

/* Text of bounded length. */
struct text {
    char *at;
    size_t length, size;
};

static void put_text(struct text *text, const char *word) {
    for (; *word && text->length + 1 < text->size; word++) text->at[text->length++] = *word;
    text->at[text->length] = 0;
}

static void put_digits(struct text *text, uint64_t number) {
    char digits[21];
    int at = sizeof digits - 1;
    digits[at] = 0;
    do digits[--at] = (char)('0' + number % 10);
    while (number /= 10);
    put_text(text, digits + at);
}

static bool is_full(const struct text *text) {
    return text->length + 1 >= text->size;
}

/* What is told of files */

/* Adds a line to the list of the run: a word, the process and two texts, between tabs. One write, so that lines of
   several processes stay apart. */
static void tell_run(const char *word, const char *one, const char *other) {
    static char line[3 * LONGEST_NAME];
    struct text text = {line, 0, sizeof line - 1};
    int list = settings.run[0] ? open(settings.run, O_WRONLY | O_APPEND | O_CLOEXEC) : -1;
    if (list < 0) return;
    put_text(&text, word);
    put_text(&text, "\t");
    put_digits(&text, (uint64_t)getpid());
    put_text(&text, "\t");
    put_text(&text, one);
    put_text(&text, "\t");
    put_text(&text, other);
    line[text.length++] = '\n';
    ssize_t written = write(list, line, text.length);
    (void)written;
    close(list);
}

/* Says why there is no file: to taskaudit-run, or where there is none on standard error. Returns false. */
static bool refuse(const char *what, const char *why) {
    static char line[3 * LONGEST_NAME];
    struct text text = {line, 0, sizeof line};
    if (settings.run[0]) {
        tell_run("failed", what, why);
        return false;
    }
    const char *const parts[] = {"taskaudit: ", what, ": ", why, "; nothing is recorded\n"};
    for (size_t i = 0; i < sizeof parts / sizeof *parts; i++) put_text(&text, parts[i]);
    ssize_t written = write(STDERR_FILENO, line, text.length);
    (void)written;
    return false;
}

/* Names */

/* Returns the program that runs, by its whole name. What would end a line of the list becomes `_`. */
static const char *program(void) {
    static char name[LONGEST_NAME];
    ssize_t length = readlink("/proc/self/exe", name, sizeof name - 1);
    name[length > 0 ? length : 0] = 0;
    for (char *at = name; *at; at++)
        if (*at == '\n' || *at == '\t') *at = '_';
    return name;
}

const char *program_name(void) {
    const char *name = program(), *last = strrchr(name, '/');
    return last ? last + 1 : name;
}

static const char *rank(void) {
    for (int i = 0; i < RANKS; i++)
        if (getenv(ranks[i])) return getenv(ranks[i]);
    return "0";
}

/* Puts a name where no folder, blank or end of a line can stand. */
static void put_plain(struct text *text, const char *name) {
    for (; *name; name++) {
        char letter[2] = {*name > ' ' && *name != '/' && *name != 127 ? *name : '_', 0};
        put_text(text, letter);
    }
}

/* Makes the name of the file from the pattern; says what is wrong with that, and returns false. */
static bool name_file(void) {
    struct text text = {whole_name, 0, sizeof whole_name - 64};
    names_process = false;
    for (const char *at = settings.file; *at; at++) {
        char letter[2] = {*at, 0};
        if (*at != '%') put_text(&text, letter);
        else if (*++at == 'p') put_digits(&text, (uint64_t)getpid()), names_process = true;
        else if (*at == 'n') put_plain(&text, program_name());
        else if (*at == 'r') put_plain(&text, rank());
        else if (*at == '%') put_text(&text, "%");
        else return refuse(settings.file, "behind % stands p (process), n (program), r (rank) or %");
    }
    return !is_full(&text) || refuse(settings.file, "the name is too long");
}

/* In a forked process the name without it is the parent's. */
static void add_process(void) {
    struct text text = {whole_name, strlen(whole_name), sizeof whole_name};
    put_text(&text, ".");
    put_digits(&text, (uint64_t)getpid());
    names_process = true;
}

/* Makes the file under a name that tells that it is not whole, which no other process has. */
static bool make_part(void) {
    for (int number = 1; number < MOST_NAMES; number++) {
        struct text text = {part_name, 0, sizeof part_name};
        put_text(&text, whole_name);
        put_text(&text, ".");
        put_digits(&text, (uint64_t)getpid());
        if (number > 1) put_text(&text, "."), put_digits(&text, (uint64_t)number);
        put_text(&text, ".part");
        int made = open(part_name, O_WRONLY | O_CREAT | O_EXCL | O_CLOEXEC, 0666);
        if (made >= 0) {
            close(made);
            tell_run("begin", part_name, program());
            return true;
        }
        if (errno != EEXIST) break;
    }
    const char *why = strerror(errno);
    refuse(whole_name, why);
    part_name[0] = 0;
    return false;
}

/* A live file is written under the name that it keeps: into a new file, or a pipe or device that is there; or where
   the run is watched, into a pipe that is made here. Beside it is, at the end, a file with this behind the name. */

#define ENDING ".end"
/* From this number on a program hardly has files of its own. */
enum { FIRST_DESCRIPTOR = 500 };
/* Where it is written, or -1; and what it was at the begin. */
static int live = -1;
static struct stat live_found;

static bool has_prefix(const char *name, const char *prefix) {
    return strncmp(name, prefix, strlen(prefix)) == 0;
}

/* Whether the name is that of a file which the process has open. */
static bool is_descriptor(const char *name) {
    return has_prefix(name, "/dev/fd/") || has_prefix(name, "/proc/self/fd/");
}

/* Opens the pipe or device of this name, or what the process has open. Returns -1 with `errno` 0 if there is none. A pipe
   is opened when somebody reads it. */
static int open_pipe(const char *name) {
    struct stat found;
    int opened = -1;
    if (stat(name, &found) != 0 || (S_ISREG(found.st_mode) && !is_descriptor(name))) {
        errno = 0;
        return -1;
    }
    do opened = open(name, O_WRONLY | O_APPEND | O_CLOEXEC);
    while (opened < 0 && errno == EINTR);
    return opened;
}

/* Makes a file of its name, and opens it; or where the run is watched a pipe, for taskaudit-run alone. Returns -1 if
   that cannot be, as where the name is taken. */
static int make_named(void) {
    return settings.is_watched ? mkfifo(whole_name, 0600)
                               : open(whole_name, O_WRONLY | O_CREAT | O_EXCL | O_CLOEXEC, 0666);
}

/* The same; where the name is taken, with the number of the process behind it, or a count. */
static int make_new(void) {
    struct text text = {whole_name, strlen(whole_name), sizeof whole_name};
    int made = make_named();
    if (made < 0 && errno == EEXIST && !names_process) {
        put_text(&text, ".");
        put_digits(&text, (uint64_t)getpid());
        made = make_named();
    }
    size_t length = text.length;
    for (uint64_t count = 2; made < 0 && errno == EEXIST && count < MOST_NAMES; count++) {
        text.length = length;
        put_text(&text, ".");
        put_digits(&text, count);
        made = make_named();
    }
    return made;
}

/* How often a process looks in any case whether taskaudit-run reads its pipe, since from within a container it may not
   see that process; and how many nanoseconds lie between. In all some ten seconds. */
enum { SURE_LOOKS = 10000, BETWEEN_LOOKS = 1000000 };

/* Whether taskaudit-run still runs. */
static bool is_run_there(void) {
    return settings.parent > 0 && (kill(settings.parent, 0) == 0 || errno == EPERM);
}

/* Makes a pipe, tells taskaudit-run its name, and opens it when that reads it. Returns -1 if it cannot be made, or will
   not be read: an open that blocks would do so for ever where taskaudit-run is killed. */
static int open_watched(void) {
    int opened = -1;
    if (make_new() < 0) return -1;
    tell_run("pipe", whole_name, program());
    for (int looks = 1; (opened = open(whole_name, O_WRONLY | O_APPEND | O_NONBLOCK | O_CLOEXEC)) < 0; looks++) {
        int why = errno;
        if ((why != ENXIO && why != EINTR) || (looks > SURE_LOOKS && !is_run_there())) {
            errno = why;
            return -1;
        }
        nanosleep(&(struct timespec){.tv_nsec = BETWEEN_LOOKS}, NULL);
    }
    fcntl(opened, F_SETFL, O_APPEND);
    return opened;
}

/* The file that says how the process ended. */
static const char *ending_name(void) {
    static char name[LONGEST_NAME];
    struct text text = {name, 0, sizeof name};
    put_text(&text, whole_name);
    put_text(&text, ENDING);
    return name;
}

/* Whether a file may be beside it: not beside a device. */
static bool has_ending(void) {
    return (S_ISREG(live_found.st_mode) || S_ISFIFO(live_found.st_mode)) && !is_descriptor(whole_name);
}

static bool make_live(void) {
    int opened = settings.is_watched ? open_watched() : open_pipe(whole_name);
    if (opened < 0 && errno == 0) opened = make_new();
    if (opened < 0) return refuse(whole_name, strerror(errno));
    live = fcntl(opened, F_DUPFD_CLOEXEC, FIRST_DESCRIPTOR);
    if (live < 0) live = opened; /* so many are not allowed */
    else close(opened);
    fstat(live, &live_found);
    if (has_ending()) unlink(ending_name());
    strcpy(part_name, whole_name);
    tell_run("live", part_name, program());
    return true;
}

int live_file(void) {
    return live;
}

bool is_live_file(void) {
    struct stat found;
    return fstat(live, &found) == 0 && found.st_dev == live_found.st_dev && found.st_ino == live_found.st_ino;
}

void cut_live_file(uint64_t length) {
    bool is_cut = is_live_file() && S_ISREG(live_found.st_mode) && ftruncate(live, live_found.st_size + (off_t)length) == 0;
    (void)is_cut;
}

void fail_live_file(const char *why) {
    refuse(part_name, why);
    part_name[0] = 0;
}

/* Takes a text from the environment; says where it is too long, and returns false. */
static bool take_setting(char *to, const char *name) {
    const char *value = getenv(name);
    if (!value) value = "";
    if (strlen(value) >= LONGEST_NAME) return refuse(name, "too long");
    strcpy(to, value);
    return true;
}

/* Takes the pattern of the name, of a file or of the pipes of a run that is watched. A name from this folder on is made
   one from the root, since the program may go elsewhere. */
static bool take_file(void) {
    char given[LONGEST_NAME];
    if (!take_setting(given, "TASKAUDIT_WATCH")) return false;
    settings.is_watched = given[0] != 0;
    if (!settings.is_watched && !take_setting(given, "TASKAUDIT_FILE")) return false;
    if (!given[0]) strcpy(given, DEFAULT_FILE);
    struct text text = {settings.file, 0, sizeof settings.file};
    if (given[0] != '/') {
        char folder[LONGEST_NAME];
        if (!getcwd(folder, sizeof folder)) return refuse("this folder", strerror(errno));
        for (const char *at = folder; *at; at++) {
            char letters[3] = {*at, *at == '%' ? '%' : 0, 0};
            put_text(&text, letters);
        }
        put_text(&text, "/");
    }
    put_text(&text, given);
    return !is_full(&text) || refuse(given, "the name is too long");
}

/* Takes the version from the environment, where it names one that is known. */
static bool take_version(void) {
    const char *chosen = getenv("TASKAUDIT_VERSION");
    if (!chosen || !*chosen) return true;
    settings.version = *chosen - '0';
    if (chosen[1] == 0 && settings.version >= FIRST_VERSION && settings.version <= LAST_VERSION) return true;
    return refuse("TASKAUDIT_VERSION", "no version of a trace file; 1, 2 and 3 are");
}

/* Whether the environment asks for this. */
static bool is_set(const char *name) {
    const char *value = getenv(name);
    return value && *value && strcmp(value, "0") != 0;
}

/* Takes from the environment what else the recorder is to do. */
static bool take_wishes(void) {
    const char *shaking = getenv("TASKAUDIT_SHAKE"), *parent = getenv("TASKAUDIT_PARENT");
    settings.parent = parent ? atoi(parent) : 0;
    settings.has_times = is_set("TASKAUDIT_TIME");
    settings.is_live = settings.is_watched || is_set("TASKAUDIT_LIVE");
    if (settings.is_live && settings.version < NESTING_VERSION)
        return refuse("TASKAUDIT_LIVE", "a file that is written while the program runs has version 3, not the one that"
                                        " TASKAUDIT_VERSION names");
    if (!shaking || !*shaking || take_shaking(shaking)) return true;
    return refuse("TASKAUDIT_SHAKE", "must be a seed, or a seed and the number of a run, as 7 or 7:3");
}

bool begin_file(void) {
    if (!take_setting(settings.run, "TASKAUDIT_RUN")) return false;
    if (!take_version() || !take_file() || !take_wishes()) return false;
    find_modules();
    return name_file() && (settings.is_live ? make_live() : make_part());
}

bool begin_file_of_fork(void) {
    if (!name_file()) return false;
    if (!names_process) add_process();
    return settings.is_live ? make_live() : make_part();
}

void forget_file(void) {
    part_name[0] = 0;
    if (live >= 0) close(live);
    live = -1;
}

/* The end of the file */

/* Gives the file this name, where no file has it. */
static bool move_to(const char *name) {
    if (syscall(SYS_renameat2, AT_FDCWD, part_name, AT_FDCWD, name, 1 /* no replacing */) == 0) return true;
    if (errno != EINVAL && errno != ENOSYS) return false;
    if (access(name, F_OK) == 0) {
        errno = EEXIST;
        return false;
    }
    return rename(part_name, name) == 0;
}

/* Gives the file its name; where another file has that, with the number of the process behind it, or a count. */
static bool move_to_name(void) {
    struct text text = {whole_name, strlen(whole_name), sizeof whole_name};
    if (move_to(whole_name)) return true;
    if (!names_process && errno == EEXIST) {
        put_text(&text, ".");
        put_digits(&text, (uint64_t)getpid());
        if (move_to(whole_name)) return true;
    }
    size_t length = text.length;
    for (uint64_t count = 2; errno == EEXIST && count < MOST_NAMES; count++) {
        text.length = length;
        put_text(&text, ".");
        put_digits(&text, count);
        if (move_to(whole_name)) return true;
    }
    return false;
}

static const char *reason(int number) {
    return number == ENOSPC || number == EDQUOT ? "the disk is full" : "it could not be written";
}

void finish_file(const char *ending) {
    if (!part_name[0]) return;
    if (settings.is_live) {
        finish_writing(ending);
        return;
    }
    int file = open(part_name, O_WRONLY | O_CREAT | O_TRUNC | O_CLOEXEC, 0666);
    const char *why = file < 0 ? reason(errno) : write_records(file, ending);
    if (file >= 0 && close(file) != 0 && !why) why = reason(errno);
    if (!why && !move_to_name()) why = reason(errno);
    if (why) refuse(part_name, why);
    else tell_run("end", part_name, whole_name);
    part_name[0] = 0;
}

/* Returns why the file beside it could not be written, or NULL. */
static const char *make_ending(const char *ending) {
    int file = open(ending_name(), O_WRONLY | O_CREAT | O_TRUNC | O_CLOEXEC, 0666);
    if (file < 0) return reason(errno);
    const char *why = write_ending(file, ending);
    return close(file) != 0 && !why ? reason(errno) : why;
}

void close_live_file(const char *ending, const char *fault) {
    if (is_live_file() && close(live) != 0 && !fault) fault = reason(errno);
    live = -1;
    const char *why = has_ending() ? make_ending(ending) : NULL;
    if (!fault) fault = why;
    if (fault) refuse(part_name, fault);
    else tell_run("end", part_name, whole_name);
    part_name[0] = 0;
}
