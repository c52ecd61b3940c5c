/* Writes the records of a process as a trace file (docs/FORMAT.md): the header, and the records in the order of time. It
   runs in signal handlers too, so it calls nothing of the C library but system calls. */
#define _GNU_SOURCE
#include "recorder.h"

#include <errno.h>
#include <link.h>
#include <omp-tools.h>
#include <string.h>
#include <sys/mman.h>
#include <unistd.h>

/* The names of docs/FORMAT.md, by the numbers of OMPT. */
static const char *const thread_kinds[] = {"unknown", "initial", "worker", "other", "unknown"};
static const char *const endpoints[] = {"", "begin", "end", "beginend"};
static const char *const statuses[] = {"", "complete", "yield", "cancel", "detach", "early_fulfill", "late_fulfill",
                                       "switch", "taskwait_complete"};
static const char *const region_kinds[] = {
    "", "barrier", "barrier_implicit", "barrier_explicit", "barrier_implementation", "taskwait", "taskgroup",
    "reduction", "barrier_implicit_workshare", "barrier_implicit_parallel", "barrier_teams"};
enum { BARRIER_TEAMS = 10 }; /* older headers lack it */
static const char *const types[] = {"", "in", "out", "inout", "mutexinoutset", "", "", "inoutset"};

struct flag {
    uint32_t bit;
    const char *name;
};
static const struct flag task_flags[] = {
    {1, "initial"}, {2, "implicit"}, {4, "explicit"}, {8, "target"}, {0x10, "taskwait"}, {0x8000000, "undeferred"},
    {0x10000000, "untied"}, {0x20000000, "final"}, {0x40000000, "mergeable"}, {0x80000000, "merged"}, {0, NULL}};
static const struct flag cancel_flags[] = {{1, "parallel"}, {2, "sections"}, {4, "loop"}, {8, "taskgroup"},
                                           {0x10, "activated"}, {0x20, "detected"}, {0x40, "discarded_task"}, {0, NULL}};
static const char *const note_names[NOTES] = {
    "moved", "untied", "created_for_another", "discarded_twice", "doacross", "all_memory", "long_list", "late_list",
    "no_task", "unknown", "wrong_end", "nested", "inner_regions", "teams", "target", "added_members", "barriers_renamed",
    "joins_in_teams", "league_members", "helpers_without_task", "target_constructs",
    "many_records", "many_tasks", "many_threads", "deep_tasks", "no_memory"};

/* No record takes more text: a path has at most 1,024 numbers, a list 64 items, and a module's name 256 bytes. */
enum { LONGEST_LINE = 1 << 15 };

/* Text on its way to the file */

static int file;
static char text[1 << 20];
static size_t length;
static const char *fault;

/* Whether it is a live file, and how much of that is written; it has whole lines. */
static bool is_live_text, is_unwritten;
static uint64_t whole_length;

static void flush(void) {
    if (length && is_live_text && !fault && !is_live_file()) fault = "the program closed it";
    for (size_t at = 0; at < length && !fault;) {
        ssize_t written = write(file, text + at, length - at);
        if (written < 0 && errno == EINTR) continue;
        if (written <= 0) fault = written < 0 && errno == ENOSPC ? "the disk is full" : "it could not be written";
        else at += (size_t)written;
    }
    if (is_live_text && !is_unwritten && fault) cut_live_file(whole_length);
    is_unwritten |= is_live_text && fault;
    whole_length += length;
    length = 0;
}

static void put(const char *word) {
    size_t size = strlen(word);
    memcpy(text + length, word, size);
    length += size;
}

static void put_number(uint64_t number) {
    char digits[20];
    int at = sizeof digits;
    do digits[--at] = (char)('0' + number % 10);
    while (number /= 10);
    memcpy(text + length, digits + at, sizeof digits - at);
    length += sizeof digits - at;
}

/* Puts a member of a number after the one before. */
static void put_member(const char *name, uint64_t number) {
    put(name);
    put_number(number);
}

static void put_flags(const struct flag *table, uint32_t bits) {
    const char *between = "";
    put(",\"flags\":[");
    for (; table->name; table++) {
        if (!(bits & table->bit)) continue;
        put(between);
        put("\"");
        put(table->name);
        put("\"");
        between = ",";
    }
    put("]");
}

/* Where code is */

static struct module {
    uintptr_t begin, end, base;
    char name[256];
} modules[128];
static int module_count;
/* Whether code that gcc compiled runs under LLVM's runtime: that goes by the name of gcc's then. */
static bool is_gcc;

/* Copies a name, where what JSON would have to escape becomes `_`. */
static void copy_plain(char *to, size_t size, const char *from) {
    size_t at = 0;
    for (; from[at] && at + 1 < size; at++)
        to[at] = from[at] < ' ' || from[at] > '~' || from[at] == '"' || from[at] == '\\' ? '_' : from[at];
    to[at] = 0;
}

static int add_module(struct dl_phdr_info *info, size_t size, void *unused) {
    (void)size, (void)unused;
    for (int i = 0; i < info->dlpi_phnum && module_count < 128; i++) {
        const ElfW(Phdr) *part = &info->dlpi_phdr[i];
        if (part->p_type != PT_LOAD || !(part->p_flags & PF_X)) continue;
        struct module *made = &modules[module_count++];
        made->base = info->dlpi_addr;
        made->begin = made->base + part->p_vaddr;
        made->end = made->begin + part->p_memsz;
        is_gcc |= strstr(info->dlpi_name, "libgomp.so") != NULL;
        copy_plain(made->name, sizeof made->name, info->dlpi_name);
    }
    return 0;
}

void find_modules(void) {
    static bool is_found;
    if (settings.is_live && is_found) return; /* the writer may read them */
    is_found = true;
    module_count = 0;
    dl_iterate_phdr(add_module, NULL);
}

/* Puts where the code of a record is: an address in the program, or in a library after its name. */
static void put_code(const void *code) {
    uintptr_t address = (uintptr_t)code;
    for (int i = 0; i < module_count; i++) {
        if (address < modules[i].begin || address >= modules[i].end) continue;
        put(",\"codeptr\":\"");
        if (modules[i].name[0]) {
            put(modules[i].name);
            put("+");
        }
        put("0x");
        uintptr_t offset = address - modules[i].base;
        int digit = 60;
        while (digit > 0 && !(offset >> digit)) digit -= 4;
        for (; digit >= 0; digit -= 4) text[length++] = "0123456789abcdef"[offset >> digit & 15];
        put("\"");
        return;
    }
}

/* Records of a thread */

/* Returns the time of the record that came last, where the file has times. */
static uint64_t time_of_last(const struct cursor *cursor) {
    return settings.has_times ? cursor->block->times[(cursor->at - 1) % RECORDS_OF_BLOCK] : 0;
}

/* Whether the parallel region that begins here is inside another one, which a file of this version cannot have. */
static bool may_leave_out(const struct record *begin) {
    return !is_nesting() && !begin->task->is_initial;
}

/* Whether the parallel region that begins just before the cursor is one of one thread inside another region, in which
   nothing is created; it may be left out then. The cursor moves to after its end. */
static bool passes_inner_region(struct cursor *cursor, const struct record *begin) {
    struct cursor ahead = *cursor;
    for (const struct record *record; (record = next_record(&ahead));) {
        switch (record->callback) {
        case PARALLEL_END:
            if (record->region != begin->region) break;
            *cursor = ahead;
            return true;
        case IMPLICIT_TASK:
            if (record->endpoint == ompt_scope_begin && record->size != 1) return false;
            break;
        case CANCEL:
            if (record->flags & ompt_cancel_discarded_task) return false;
            break;
        case PARALLEL_BEGIN:
        case SYNC_REGION:
            break;
        default:
            return false;
        }
    }
    return false;
}

/* Records */

static bool renames_barriers;

/* The next task, and which of its turns begins where the file has turns. */
static void put_next(const struct record *record) {
    put(",\"next\":");
    if (!record->other) {
        put("null");
        return;
    }
    put_number(id_of(record->other));
    if (settings.version > FIRST_VERSION) put_member(",\"next_turn\":", record->turns.next);
}

static void put_claim(const struct record *record) {
    static uint32_t path[MAX_DEPTH];
    const struct task *task = record->task;
    for (uint32_t depth = task->depth; depth; depth--, task = task->parent) path[depth - 1] = task->number;
    put_member(",\"kept\":", record->size);
    if (record->callback == TASK_SCHEDULE) put_next(record);
    put(",\"path\":[");
    for (uint32_t i = 0; i < record->task->depth; i++) put_member(i ? "," : "", path[i]);
    put("]");
}

static void put_name(const char *member, const char *name) {
    put(member);
    put("\"");
    put(name);
    put("\"");
}

static void put_list(const struct record *record) {
    put(",\"list\":[");
    for (uint32_t i = 0; i < record->size; i++) {
        put_name(i ? ",{\"type\":" : "{\"type\":", types[record->list[i].type]);
        put_member(",\"var\":", record->list[i].variable);
        put("}");
    }
    put("]");
}

/* Puts what the format does not know, in the one place where such members cost a reader little: the time of the record,
   where the file has times, and where the code of it is, if it has one. */
static void put_others(uint64_t time, const void *code) {
    if (code) put_code(code);
    if (settings.has_times) put_member(",\"time\":", time);
}

static void put_implicit_task(const struct record *record, uint64_t time) {
    put_member("{\"actual\":", record->size);
    put(",\"cb\":\"implicit_task\"");
    put_others(time, NULL);
    put_name(",\"endpoint\":", endpoints[record->endpoint]);
    put_flags(task_flags, record->flags);
    put_member(",\"index\":", record->index);
    put_member(",\"parallel\":", record->region);
}

static void put_task_create(const struct record *record, uint64_t time) {
    put_member("{\"cb\":\"task_create\",\"child\":", id_of(record->other));
    put_others(time, record->code);
    put(record->kind ? ",\"deps\":true" : ",\"deps\":false");
    put_flags(task_flags, record->flags);
}

static void put_task_schedule(const struct record *record, uint64_t time) {
    put("{\"cb\":\"task_schedule\"");
    put_others(time, NULL);
    if (makes_entry(record)) put_claim(record);
    else put_next(record);
    put_member(",\"prior\":", id_of(record->task));
    if (record->other && settings.version > FIRST_VERSION) put_member(",\"prior_turn\":", record->turns.prior);
    if (makes_entry(record)) put_member(",\"root\":", id_of(record->task->root));
}

static void put_sync_region(const struct record *record, uint64_t time) {
    bool is_renamed = renames_barriers && record->kind == ompt_sync_region_barrier_implementation;
    put("{\"cb\":\"sync_region\"");
    put_others(time, record->code);
    put_name(",\"endpoint\":", endpoints[record->endpoint]);
    put_name(",\"kind\":", region_kinds[is_renamed ? ompt_sync_region_barrier : record->kind]);
    put(",\"parallel\":");
    if (record->region) put_number(record->region);
    else put("null");
}

static void put_cancel(const struct record *record, uint64_t time) {
    put("{\"cb\":\"cancel\"");
    put_others(time, record->code);
    put_flags(cancel_flags, record->flags);
    if (!makes_entry(record)) return;
    put_claim(record);
    put_member(",\"root\":", id_of(record->task->root));
}

static void put_thread_record(const struct record *record, uint64_t time) {
    put(record->callback == THREAD_BEGIN ? "{\"cb\":\"thread_begin\"" : "{\"cb\":\"thread_end\"");
    put_others(time, NULL);
    if (record->callback == THREAD_BEGIN) put_name(",\"kind\":", thread_kinds[record->kind]);
}

static void put_parallel(const struct record *record, uint64_t time) {
    put(record->callback == PARALLEL_BEGIN ? "{\"cb\":\"parallel_begin\"" : "{\"cb\":\"parallel_end\"");
    put_others(time, record->code);
    put_member(",\"parallel\":", record->region);
    if (record->callback == PARALLEL_BEGIN) put_member(",\"requested\":", record->size);
}

static void put_dependences(const struct record *record, uint64_t time) {
    put("{\"cb\":\"dependences\"");
    put_others(time, NULL);
    put_list(record);
}

/* Puts the line of a record, which is number `seq` of the thread. The members are in the order of their names, but for
   those that the format does not know. */
static void put_record(const struct record *record, uint64_t time, int thread, uint32_t seq) {
    switch ((enum callback)record->callback) {
    case THREAD_BEGIN:
    case THREAD_END: put_thread_record(record, time); break;
    case PARALLEL_BEGIN:
    case PARALLEL_END: put_parallel(record, time); break;
    case IMPLICIT_TASK: put_implicit_task(record, time); break;
    case TASK_CREATE: put_task_create(record, time); break;
    case DEPENDENCES: put_dependences(record, time); break;
    case TASK_SCHEDULE: put_task_schedule(record, time); break;
    case SYNC_REGION: put_sync_region(record, time); break;
    case CANCEL: put_cancel(record, time); break;
    }
    put_member(",\"seen\":", record->seen);
    put_member(",\"seq\":", seq);
    if (record->callback == TASK_SCHEDULE) put_name(",\"status\":", statuses[record->kind]);
    else if (record->callback > THREAD_END) put_member(",\"task\":", id_of(record->task));
    put_member(",\"thread\":", (uint64_t)thread);
    put("}\n");
    if (length > sizeof text - LONGEST_LINE) flush();
}

static void put_records(void) {
    static uint32_t counts[MAX_THREADS];
    int thread;
    begin_pass();
    for (const struct record *record; (record = next_in_time(&thread));) {
        struct cursor *cursor = &cursors[thread];
        if (record->callback == PARALLEL_BEGIN && may_leave_out(record) && passes_inner_region(cursor, record)) continue;
        put_record(record, time_of_last(cursor), thread, counts[thread]++);
    }
}

/* A look at all records before they are written */

static uint64_t last_id;
static uint64_t regions_of_kind[sizeof region_kinds / sizeof *region_kinds];
/* What is audited: ends of regions that wait for tasks, and tasks with dependences that start. */
static uint64_t wait_count, dependent_count;
/* How many ends and begins of barriers got another name. */
static uint64_t renamed_count;
/* How many lines each thread has in the file, the one of added members last; and how many regions did not end. */
static uint32_t lines[MAX_THREADS + 1];
static uint32_t open_regions;

/* Of each parallel region the team; not of a live file. */
static struct team *teams;

/* The team of a region, or NULL where there is none, or no memory. */
static struct team *team_of(uint32_t region) {
    if (region == 0 || region > last_region) return NULL;
    if (!settings.is_live) return teams ? &teams[region] : NULL;
    struct live_team *found = live_team(region);
    return found ? &found->team : NULL;
}

static void count(enum note what, const void *code) {
    if (atomic_fetch_add(&notes[what], 1) == 0) atomic_store(&first_code[what], code);
}

/* Notes which member of a team begins. */
static void look_at_live_member(const struct record *record) {
    struct live_team *team = live_team(record->region);
    if (record->index < MAX_THREADS) team->members[record->index / 64] |= 1ull << record->index % 64;
    look_at_live_team(record->region);
}

static void look_at_root(const struct record *record, uint64_t time) {
    if (record->endpoint != ompt_scope_begin) return;
    set_id(record->task, ++last_id);
    struct team *team = record->task->is_initial ? NULL : team_of(record->region);
    if (!team) return;
    team->size = record->size;
    team->index = record->index;
    team->time = time;
    team->begun++;
    if (settings.is_live) look_at_live_member(record);
}

static void look_at_parallel(const struct record *record) {
    struct team *team = team_of(record->region);
    open_regions++;
    if (team) team->is_in_league = record->task->is_of_league;
}

static void look_at_end(const struct record *record) {
    struct live_team *team = settings.is_live && team_of(record->region) ? live_team(record->region) : NULL;
    open_regions--;
    if (!team) return;
    team->has_ended = true;
    look_at_live_team(record->region);
}

/* What a live file renames is known only by what came before: whether another library goes by the name of gcc's, or there
   was a `barrier`. */
static void look_at_live_barrier(const struct record *record) {
    renames_barriers = is_gcc || regions_of_kind[ompt_sync_region_barrier];
    renamed_count += renames_barriers && record->kind == ompt_sync_region_barrier_implementation;
}

static void look_at_region(const struct record *record) {
    regions_of_kind[record->kind]++;
    if (settings.is_live) look_at_live_barrier(record);
    bool waits = record->kind != ompt_sync_region_barrier_implementation && record->kind != ompt_sync_region_reduction &&
                 record->kind != BARRIER_TEAMS;
    wait_count += waits && record->endpoint != ompt_scope_begin;
}

static void look_at_schedule(const struct record *record) {
    struct task *started = record->kind == ompt_taskwait_complete ? record->task : record->other;
    if (!started || !started->has_list || started->has_started) return;
    started->has_started = true;
    dependent_count++;
}

/* Whether a region that an explicit or implicit task begins is left out; the cursor moves behind it then. */
static bool leaves_out(struct cursor *cursor, const struct record *begin) {
    bool is_left_out = passes_inner_region(cursor, begin);
    count(is_left_out ? INNER_REGIONS : NESTED, begin->code);
    return is_left_out;
}

/* Looks at the record just before the cursor, which moves on where a region is left out. Returns whether the record has a
   line. */
static bool look_at(const struct record *record, struct cursor *cursor) {
    if (record->callback == TASK_CREATE) set_id(record->other, ++last_id);
    else if (record->callback == IMPLICIT_TASK) look_at_root(record, time_of_last(cursor));
    else if (record->callback == SYNC_REGION) look_at_region(record);
    else if (record->callback == TASK_SCHEDULE) look_at_schedule(record);
    else if (record->callback == PARALLEL_END) look_at_end(record);
    else if (record->callback == PARALLEL_BEGIN) {
        if (may_leave_out(record) && leaves_out(cursor, record)) return false;
        look_at_parallel(record);
    }
    return true;
}

/* Gives the tasks their ids, which rise in the order of the lines that make them, and counts what is there and what is
   left out. */
static void look_at_records(void) {
    int thread;
    begin_pass();
    for (const struct record *record; (record = next_in_time(&thread));)
        lines[thread] += look_at(record, &cursors[thread]);
}

/* Code that gcc compiled reports its barriers as `barrier_implementation`, or as that on the primary thread and as
   `barrier` on others. All are written as `barrier`, since each of them waits for tasks. Other code has no
   `barrier`, and a `barrier_implementation` only in reductions. */
static void look_at_barriers(void) {
    uint64_t found = regions_of_kind[ompt_sync_region_barrier_implementation];
    renames_barriers = found && (is_gcc || regions_of_kind[ompt_sync_region_barrier]);
    if (renames_barriers) renamed_count = found;
}

static void count_renamed(void) {
    if (!renamed_count) return;
    atomic_store(&notes[BARRIERS_RENAMED], renamed_count / 2);
    wait_count += renamed_count / 2;
}

/* Members that never began: the program ended before their threads woke; or their region is the one that each initial
   task of a teams construct begins, of which the runtime tells the first member only. A thread of their own begins and
   ends them, where the file has room for one more. */

static bool lacks_members(const struct team *team) {
    return team && team->begun < team->size && team->size <= MAX_THREADS && thread_total < MAX_THREADS;
}

static void look_at_teams(void) {
    for (uint32_t region = 1; region <= last_region; region++) {
        const struct team *team = team_of(region);
        if (!lacks_members(team)) continue;
        enum note what = team->is_in_league ? LEAGUE_MEMBERS : ADDED_MEMBERS;
        atomic_fetch_add(&notes[what], team->size - team->begun);
    }
    lines[thread_total] = 2 * (uint32_t)(notes[ADDED_MEMBERS] + notes[LEAGUE_MEMBERS]);
}

/* All records are searched only where several members began. */
static void find_begun(uint32_t region, bool *is_begun) {
    const struct team *team = team_of(region);
    memset(is_begun, 0, MAX_THREADS);
    if (team->begun == 1 && team->index < MAX_THREADS) {
        is_begun[team->index] = true;
        return;
    }
    for (int i = 0; i < thread_total; i++) {
        struct cursor cursor = records_of(i);
        for (const struct record *record; (record = next_record(&cursor));)
            if (record->callback == IMPLICIT_TASK && record->endpoint == ompt_scope_begin && record->region == region &&
                record->index < MAX_THREADS)
                is_begun[record->index] = true;
    }
}

static void find_begun_live(uint32_t region, bool *is_begun) {
    const struct live_team *team = live_team(region);
    for (int index = 0; index < MAX_THREADS; index++) is_begun[index] = team->members[index / 64] >> index % 64 & 1;
}

/* Puts the begin and the end of a member, which are these two of the thread. */
static void put_member_of(uint32_t region, uint32_t size, uint32_t index, uint64_t time, uint32_t seq) {
    struct live_task member = {.id = 0};
    struct record record = {.callback = IMPLICIT_TASK, .endpoint = ompt_scope_begin, .flags = ompt_task_implicit,
                            .size = size, .index = index, .region = region, .task = &member.task};
    set_id(&member.task, ++last_id);
    put_record(&record, time, thread_total, seq);
    record.endpoint = ompt_scope_end;
    put_record(&record, time, thread_total, seq + 1);
}

static void put_missing_members(void) {
    static bool is_begun[MAX_THREADS];
    uint32_t seq = 0;
    uint64_t time = 0;
    for (uint32_t region = 1; region <= last_region; region++) {
        const struct team *team = team_of(region);
        if (!lacks_members(team)) continue;
        if (settings.is_live) find_begun_live(region, is_begun);
        else find_begun(region, is_begun);
        if (time < team->time) time = team->time;
        for (uint32_t index = 0; index < team->size; index++) {
            if (is_begun[index]) continue;
            put_member_of(region, team->size, index, time, seq);
            seq += 2;
        }
    }
}

/* The file */

/* What is left out by which the audit knows less than happened. */
static const enum note lessening[] = {MANY_RECORDS, MANY_TASKS, MANY_THREADS, DEEP_TASKS, NO_MEMORY, LONG_LIST, LATE_LIST,
                                      ALL_MEMORY, NO_TASK, UNKNOWN};

static bool is_stopped(void) {
    for (int i = MANY_RECORDS; i <= NO_MEMORY; i++)
        if (notes[i]) return true;
    return false;
}

/* Puts why the file has a part of the run only, if it does, and how many lines each thread has in the file. */
static void put_recording(bool is_signalled) {
    const char *between = "";
    put(",\"recording\":{\"partial\":[");
    for (size_t i = 0; i < sizeof lessening / sizeof *lessening; i++) {
        if (!notes[lessening[i]]) continue;
        put_name(between, note_names[lessening[i]]);
        between = ",";
    }
    if (is_unwritten) put_name(between, "unwritten");
    else if (is_signalled) put_name(between, "signal");
    else if (open_regions && !is_stopped()) put_name(between, "open_region");
    put("],\"records\":[");
    int count = thread_total + (lines[thread_total] > 0);
    for (int i = 0; i < count; i++) put_member(i ? "," : "", lines[i]);
    put("]}");
}

static void put_notes(void) {
    const char *between = "";
    put(",\"notes\":{");
    for (int i = 0; i < NOTES; i++) {
        if (!notes[i]) continue;
        put(between);
        put_name("", note_names[i]);
        put_member(":{\"count\":", notes[i]);
        put_code(first_code[i]);
        put("}");
        between = ",";
    }
    put("}");
}

/* Puts how the run was shaken, by which it can be tried again. */
static void put_shaking(void) {
    put_member(",\"shake\":{\"seed\":", settings.seed);
    put_member(",\"run\":", settings.run_number);
    put_name(",\"way\":", name_of_way());
    put("}");
}

/* Puts which program is recorded. */
static void put_program(void) {
    static char program[256];
    copy_plain(program, sizeof program, program_name());
    put_name("\"program\":", program);
    put_member(",\"process\":", (uint64_t)getpid());
}

/* Puts how the run ended, what the file has of it, and what was changed. */
static void put_all_told(const char *ending) {
    put_name(",\"ending\":", ending);
    if (settings.is_shaken) put_shaking();
    put_recording(strncmp(ending, "SIG", 3) == 0);
    put_member(",\"threads\":", (uint64_t)thread_total);
    put_member(",\"waits\":", wait_count);
    put_member(",\"dependent_starts\":", dependent_count);
    put_notes();
}

/* The header, whose member `recorder` says all this; in a live file what is known at the begin. */
static void put_header(const char *ending) {
    put("{\"format\":\"task-credit-audit\",\"recorder\":{");
    put_program();
    if (!settings.is_live) put_all_told(ending);
    else if (settings.is_shaken) put_shaking();
    if (settings.is_live) put(",\"live\":true");
    put_member("},\"version\":", (uint64_t)settings.version);
    put("}\n");
}

const char *write_records(int to, const char *ending) {
    file = to;
    take_totals();
    teams = mmap(NULL, (last_region + 1) * sizeof *teams, PROT_READ | PROT_WRITE, MAP_PRIVATE | MAP_ANONYMOUS, -1, 0);
    if (teams == MAP_FAILED) teams = NULL;
    look_at_records();
    look_at_barriers();
    count_renamed();
    look_at_teams();
    put_header(ending);
    put_records();
    put_missing_members();
    flush();
    return fault;
}

/* A live file */

const char *flush_records(void) {
    flush();
    return fault;
}

const char *begin_records(int to) {
    file = to;
    is_live_text = true;
    put_header(NULL);
    return flush_records();
}

const char *write_record(const struct record *record, int thread) {
    struct cursor *cursor = &cursors[thread];
    look_at(record, cursor);
    put_record(record, time_of_last(cursor), thread, lines[thread]++);
    return fault;
}

const char *end_records(void) {
    count_renamed();
    look_at_teams();
    put_missing_members();
    return flush_records();
}

const char *write_ending(int to, const char *ending) {
    struct waits waits = waits_for_room();
    file = to;
    is_live_text = false;
    fault = NULL;
    put("{");
    put_program();
    put_all_told(ending);
    put_member(",\"live\":{\"waits\":", waits.count);
    put_member(",\"nanoseconds\":", waits.time);
    put_member(",\"memory\":", waits.memory);
    put("}}\n");
    flush();
    return fault;
}

void forget_written(void) {
    length = whole_length = 0;
    fault = NULL;
    is_unwritten = false;
    last_id = wait_count = dependent_count = renamed_count = 0;
    open_regions = 0;
    renames_barriers = false;
    memset(lines, 0, sizeof lines);
    memset(regions_of_kind, 0, sizeof regions_of_kind);
}
