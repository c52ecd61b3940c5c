/* What the parts of the recorder share: the records of a process in memory. recorder.c fills them in the callbacks of
   OMPT, writer.c makes a trace file of them in the order that merging.c finds, files.c names the file, and ending.c
   sees to it that it is written however the process ends. live.c has it written while the program runs, where that is
   asked for. docs/RECORDING.md of taskaudit has the rules that all follow. */
#ifndef TASKAUDIT_RECORDER_H
#define TASKAUDIT_RECORDER_H

#include <stdatomic.h>
#include <stdbool.h>
#include <stddef.h>
#include <stdint.h>

/* The limits of a trace file (docs/FORMAT.md). */
enum { MAX_RECORDS = 1 << 22, MAX_TASKS = 1 << 20, MAX_THREADS = 256, MAX_DEPENDENCES = 64, MAX_DEPTH = 1024 };

/* The versions of a trace file. The first cannot say that a task resumes on another thread; from NESTING_VERSION on a
   file has regions inside others, teams and target tasks. TASKAUDIT_VERSION in the environment chooses one; without it
   the file is of the default version. */
enum { FIRST_VERSION = 1, NESTING_VERSION = 3, LAST_VERSION = 3 };
enum { DEFAULT_VERSION = 3 };

/* Rooms are taken in blocks, so that threads seldom meet at the counters of all. */
enum { RECORDS_OF_BLOCK = 1024, TASKS_OF_BLOCK = 256 };

enum callback {
    THREAD_BEGIN, THREAD_END, PARALLEL_BEGIN, PARALLEL_END, IMPLICIT_TASK, TASK_CREATE, DEPENDENCES, TASK_SCHEDULE,
    SYNC_REGION, CANCEL
};

/* A task of the run, behind its ompt_data_t. */
struct task {
    struct task *parent;   /* of a root: the root below it on its thread, or NULL */
    struct task *root;     /* itself, if it is a root */
    union {
        struct task *outer;    /* of a root, until it ends: what its thread runs again then, or NULL */
        uint64_t id;           /* its number in the file, given when that is written */
    };
    uint32_t number;       /* among the children of its parent */
    uint32_t children;     /* how many it has created */
    uint32_t depth;        /* how many steps it is below its root */
    int32_t thread;        /* the thread on which it first ran, or -1 */
    union {
        uint32_t turn;         /* how often it has resumed since it started, on any thread */
        uint32_t ended;        /* when the file is written: how many of its turns have ended in what is out */
    };
    bool is_initial : 1;
    bool is_of_league : 1; /* an initial task of a teams construct, in a file that has these */
    bool has_list : 1;     /* its dependences are recorded */
    bool is_discarded;
    bool has_started;      /* for the writer: its start was counted */
    uint8_t made_in;       /* when the file is written: in how many passes the record that makes it is out */
};

/* A task, where the file is written while the program runs. What follows the task is the writer's alone, since the task
   needs both values of each union itself then. */
struct live_task {
    struct task task;
    uint64_t id : 56;
    uint64_t maker : 8;    /* the thread that created it */
    uint32_t ended;
    uint32_t holders;      /* its children whose memory is in use, and 2 until it is finished */
};

struct dependence {
    uint64_t variable;
    uint32_t type;
};

/* Of a task_schedule that names a next task: which turn of the prior task ends there, and which of the next one begins. */
struct turns {
    uint32_t prior, next;
};

struct record {
    uint8_t callback;      /* enum callback */
    uint8_t kind;          /* kind of a thread or a region, status of a task_schedule, deps of a task_create */
    uint8_t endpoint;      /* of a task_create: whether a list of dependences may follow */
    uint32_t seen, flags;
    uint32_t size, index;  /* actual and index; requested; children of a finished task; length of a list */
    uint32_t region;       /* the parallel region, from 1; 0 where the runtime names none */
    struct task *task;
    union {
        struct task *other;            /* the child, or the next task */
        struct dependence *list;
    };
    union {
        const void *code;      /* the return address in the program, or NULL */
        struct turns turns;    /* of a task_schedule, which has no code */
    };
};

struct block {
    struct block *next;
    struct record records[RECORDS_OF_BLOCK];
    uint64_t times[];      /* of the records, in nanoseconds, where the file is to have them */
};

/* A thread of the run. Only this thread writes here, except `count`, which the writer reads too. */
struct thread {
    int number;
    int id;                    /* the system's, by which a signal reaches it */
    uint32_t known;            /* the ledger length that it knows */
    _Atomic uint32_t count;    /* how many records it has */
    uint32_t capacity;         /* for how many it has room */
    struct task *current, *innermost;
    struct block *first, *last;
    struct task *tasks;        /* room for tasks */
    uint32_t tasks_left;
    char *memory;              /* room for all of these */
    size_t memory_left;
    uint64_t random;           /* the last number that was drawn, where the run is shaken */
    uint64_t places;           /* at how many places it could be delayed so far */
    bool is_bound;             /* to fewer processors */
    bool is_held;              /* it tells something behind a lock, or another one tells it: it is delayed no more */
    struct thread *next_ended;
    _Atomic int standing;      /* for the recorder of libgomp */
    /* Of a live file: tasks that are finished, as the writer gives them back, and as the thread has taken them; and room
       for new ones. */
    struct live_task *_Atomic returned;
    struct live_task *spare, *new_tasks;
    uint32_t new_tasks_left;
};

/* What was changed or left out, and what the audit does not cover: each with its name in the header of the file. */
enum note {
    MOVED, UNTIED, CREATED_FOR_ANOTHER, DISCARDED_TWICE, DOACROSS, ALL_MEMORY, LONG_LIST, LATE_LIST, NO_TASK,
    UNKNOWN, WRONG_END, NESTED, INNER_REGIONS, TEAMS, TARGET, ADDED_MEMBERS, BARRIERS_RENAMED,
    JOINS_IN_TEAMS, LEAGUE_MEMBERS, HELPERS_WITHOUT_TASK, TARGET_CONSTRUCTS,
    /* why recording stopped */
    MANY_RECORDS, MANY_TASKS, MANY_THREADS, DEEP_TASKS, NO_MEMORY, NOTES
};

/* Not for other libraries; so the compiler needs no look-up at each use. */
#pragma GCC visibility push(hidden)

extern struct thread *threads[MAX_THREADS];
extern _Atomic int thread_count;
extern _Atomic uint32_t region_count;
extern _Atomic uint64_t notes[NOTES];
extern const void *_Atomic first_code[NOTES];

/* Returns this thread, or NULL where recording is over. */
struct thread *this_thread(void);
/* Lets this thread tell what another one does, which does nothing meanwhile. Returns who it was. */
struct thread *act_as(struct thread *thread);
/* Gives number and buffer of a thread that has ended to the next thread that is made. */
void release_thread(struct thread *thread);

/* Counts something that was changed or left out. */
void note(enum note what, const void *code);
/* Ends recording for a reason, and not the program. */
void stop(enum note why, const void *code);
/* How many tasks have finished: the length of the ledger. */
uint32_t entry_count(void);
/* Returns zeroed memory that is never given back, or NULL. */
void *take(struct thread *thread, size_t bytes);

/* Forgets all records, in a forked process: they are its parent's. */
void forget_records(void);
/* Ends recording, and not the program: no callback that begins later adds a record. */
void end_recording(void);
bool is_recording(void);

/* Begins to see to the end of this process. */
void watch_ending(void);
/* Writes the trace file, once; `ending` says what ended the process. Returns when the file is written, whichever thread
   writes it. */
void end_process(const char *ending);

/* Writes the records to the file; returns why it could not, or NULL. Like what follows, it calls nothing that a signal
   handler may not. */
const char *write_records(int file, const char *ending);
/* Finds out which code is where. Not for signal handlers, and in a live file only until it begins. */
void find_modules(void);

/* The same in parts, for a live file: its header, a record that is the next in time, and the last lines. Each returns why
   it could not be written, or NULL. */
const char *begin_records(int file);
const char *write_record(const struct record *record, int thread);
const char *flush_records(void);
const char *end_records(void);
/* Writes a line to another file that says how the process ended, and what was recorded. */
const char *write_ending(int file, const char *ending);
/* Forgets what was written, in a forked process. */
void forget_written(void);

/* The records that are written */

/* Where one is in the records of a thread: behind so many of them. */
struct cursor {
    const struct block *block;
    uint32_t at, count;
};
/* How many threads there are, and the number of the last parallel region. */
extern int thread_total;
extern uint32_t last_region;
/* Where a pass is in each thread. The writer may move a cursor on, where it leaves records out. */
extern struct cursor cursors[MAX_THREADS];

/* Takes down how many records there are; comes before what follows. */
void take_totals(void);
struct cursor records_of(int thread);
/* The next record of a thread, or NULL. The cursor moves behind it. */
const struct record *next_record(struct cursor *cursor);
/* Whether it makes an entry of the ledger, since it finishes a task. */
bool makes_entry(const struct record *record);

/* Begins to go through all records in the order of time; when the pass before is at its end. */
void begin_pass(void);
/* The next record in this order, and the number of its thread; or NULL. */
const struct record *next_in_time(int *thread);

/* The same while the threads run: begins to go through their records, at first none. */
void begin_parts(void);
/* Looks how many records there are by now; returns whether there are more that may come next. */
bool look_again(void);
/* The next record of those that were seen, or NULL where it is not known yet. */
const struct record *next_so_far(int *thread);
/* Where the next record is not known: what one lacks counts as out, since it seems to be lost. */
void give_up_waiting(void);
/* No record is added any more: next_in_time has all that are left. */
void end_parts(void);

/* Parallel regions */

/* The team of a region: its size, how many members began, and the index of the last that did. */
struct team {
    uint32_t size, begun, index;
    bool is_in_league; /* an initial task of a teams construct began it */
    uint64_t time;     /* when the last one began */
};
/* The same of a live file. */
struct live_team {
    struct team team;
    bool is_begun, has_ended, is_done;
    uint64_t members[MAX_THREADS / 64]; /* which have begun: a bit for each */
};
/* The team of a region of a live file; NULL where all of it is out, or there is no memory. */
struct live_team *live_team(uint32_t region);
/* Whether the begin of the region is out. */
bool is_begun_live(uint32_t region);
/* Notes that its members, and its end, may be out, and forgets it if they are. */
void look_at_live_team(uint32_t region);
/* Forgets all, in a forked process. */
void forget_teams(void);

/* A live file */

/* Adds room for more records. Waits where the writer cannot follow. Returns false where recording is over. */
bool add_live_block(struct thread *thread);
/* Room for a list of the record that comes next, or NULL. */
struct dependence *take_list(struct thread *thread, size_t count);
/* A new task, or NULL. */
struct task *new_live_task(struct thread *thread);
/* Begins to write, at the first callback; returns false where no thread can be made for it. */
bool begin_writing(void);
/* Writes what is left, and closes the file. */
void finish_writing(const char *ending);
/* Forgets all, in a forked process. */
void forget_writing(void);
/* How often threads waited for room, and how long in nanoseconds; and the most memory that records had. */
struct waits {
    uint64_t count, time, memory;
};
struct waits waits_for_room(void);

/* The length of text that files have no more of: names, and sentences on them. */
enum { LONGEST_NAME = 4096 };

/* The ways in which a run is shaken: what the callbacks do to its timing. */
enum way { AS_IT_IS, YIELDS, DELAYS_AT_BEGINS, DELAYS_AT_ENDS, FEWER_CORES, WAYS };

/* What the environment asks for. */
struct settings {
    char file[LONGEST_NAME];    /* the pattern of the file's name, from the root */
    char run[LONGEST_NAME];     /* the list of a run's files that taskaudit-run reads, or nothing */
    int parent;                 /* the process of taskaudit-run, or 0 */
    int version;
    bool has_times;             /* each record has a time */
    bool is_live;               /* the file is written while the program runs */
    bool is_watched;            /* into a pipe that is made for taskaudit-run, of the name of the file */
    bool is_shaken;             /* in this way, by numbers that are drawn from the seed and the number of the run */
    enum way way;
    uint64_t seed, run_number;
};
extern struct settings settings;

/* Whether the file has regions inside others as they are. */
static inline bool is_nesting(void) {
    return settings.version >= NESTING_VERSION;
}

/* The number of a task in the file, and how many of its turns have ended in what is out. */
static inline uint64_t id_of(const struct task *task) {
    return settings.is_live ? ((const struct live_task *)task)->id : task->id;
}
static inline void set_id(struct task *task, uint64_t id) {
    if (settings.is_live) ((struct live_task *)task)->id = id;
    else task->id = id;
}
static inline uint32_t *ended_of(struct task *task) {
    return settings.is_live ? &((struct live_task *)task)->ended : &task->ended;
}

/* Where the timing of a run may be changed. */
enum place { BEFORE_WAIT, BEHIND_WAIT, BEFORE_FINISH, BEHIND_START, BEHIND_CREATION, MEMBER_BEGINS };
/* Changes the timing at this place of the thread. It holds nothing there, and the record that reads the ledger's length is
   made already, or the one that adds to it is not made yet: so no fault is hidden. */
void shake_at(struct thread *thread, enum place place);
static inline void shake(struct thread *thread, enum place place) {
    if (settings.way != AS_IT_IS && !thread->is_held) shake_at(thread, place);
}
/* Takes from a text as `7:3` the seed and the number of the run, which choose the way; returns whether it is one. */
bool take_shaking(const char *text);
const char *name_of_way(void);

/* Takes the settings from the environment and makes the file that will be written; says why not, and returns false. */
bool begin_file(void);
/* The same in a forked process, with the settings of its parent. */
bool begin_file_of_fork(void);
/* Forgets the file of the parent, in a forked process. */
void forget_file(void);
/* Writes the file that was made, under the name that it has to have. */
void finish_file(const char *ending);
/* Where a live file is written; and whether that still is this file, and not one of the program's. */
int live_file(void);
bool is_live_file(void);
/* Cuts it behind so many bytes, if it is no pipe. */
void cut_live_file(uint64_t length);
/* Says that a live file cannot be written on; at the end closes it, and writes how the process ended to a file beside
   it. */
void fail_live_file(const char *why);
void close_live_file(const char *ending, const char *fault);
/* The name of the program that runs, without its folder. */
const char *program_name(void);

#pragma GCC visibility pop

#endif
