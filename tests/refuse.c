/* A library for LD_PRELOAD that makes calls of the C library fail, one by one, as on a machine without memory or with a
   broken device. The environment says what it does; each number counts from 1, and K.. means each from the K-th on.

     REFUSE_ALLOCATION=K or K..   the K-th malloc, calloc, realloc, posix_memalign or aligned_alloc fails
     REFUSE_READ=K or K..         the K-th read of standard input is an input/output error
     REFUSE_WRITE=K or K..        the K-th write to standard output is one
     INTERRUPT_READ=N             the first N reads of standard input are interrupted
     INTERRUPT_WRITE=N            the first N writes to standard output are
     IDLE_WRITE=N                 the first N writes to standard output take no byte
     TROUBLE_FROM=K               the three above count from the K-th read and the K-th write on
     ONE_BYTE=1                   a read of standard input gives one byte, and a write to standard output takes one
     REFUSE_TOLD=FD               a line goes there for the first of these calls that fails for good: its kind and number;
                                  of an allocation its size, of a read or a write how many bytes were given or taken
                                  before; and the places in the program that it may have been called from, the innermost
                                  first

   Calls are counted from the first statement of `main` on. */
#define _GNU_SOURCE
#include <errno.h>
#include <link.h>
#include <pthread.h>
#include <stdatomic.h>
#include <stdint.h>
#include <stdio.h>
#include <stdlib.h>
#include <string.h>
#include <sys/syscall.h>
#include <unistd.h>

extern void *__libc_malloc(size_t);
extern void *__libc_calloc(size_t, size_t);
extern void *__libc_realloc(void *, size_t);
extern void *__libc_memalign(size_t, size_t);
extern void *__libc_stack_end;

/* Which calls of a kind fail: those with these numbers. */
struct range {
    long first, last;
};

/* How many places a line has, and how many words of the stack are searched for them. */
enum { MOST_PLACES = 48, MOST_WORDS = 16384 };

static struct range allocations, reads, writes;
static long interrupted_reads, interrupted_writes, idle_writes, trouble_from;
static int one_byte, told_to = -1, is_counting;
static atomic_long allocation_count, read_count, write_count, given_bytes, taken_bytes;
static atomic_flag is_told = ATOMIC_FLAG_INIT;
static uintptr_t base, code_begin, code_end;

static long number_of(const char *name) {
    const char *text = getenv(name);
    return text ? atol(text) : 0;
}

static struct range range_of(const char *name) {
    const char *text = getenv(name);
    long first = number_of(name);
    struct range range = {first, text && strstr(text, "..") ? INT64_MAX : first};
    return range;
}

static int is_in(struct range range, long number) {
    return range.first > 0 && range.first <= number && number <= range.last;
}

/* Notes where the program's own code lies: it is the first object. */
static int note_code(struct dl_phdr_info *object, size_t size, void *unused) {
    (void)size, (void)unused;
    base = object->dlpi_addr;
    for (int i = 0; i < object->dlpi_phnum; i++)
        if (object->dlpi_phdr[i].p_type == PT_LOAD && object->dlpi_phdr[i].p_flags & PF_X) {
            code_begin = base + object->dlpi_phdr[i].p_vaddr;
            code_end = code_begin + object->dlpi_phdr[i].p_memsz;
        }
    return 1;
}

__attribute__((constructor)) static void begin(void) {
    allocations = range_of("REFUSE_ALLOCATION");
    reads = range_of("REFUSE_READ");
    writes = range_of("REFUSE_WRITE");
    interrupted_reads = number_of("INTERRUPT_READ");
    interrupted_writes = number_of("INTERRUPT_WRITE");
    idle_writes = number_of("IDLE_WRITE");
    trouble_from = getenv("TROUBLE_FROM") ? number_of("TROUBLE_FROM") : 1;
    one_byte = number_of("ONE_BYTE") != 0;
    told_to = getenv("REFUSE_TOLD") ? (int)number_of("REFUSE_TOLD") : -1;
    dl_iterate_phdr(note_code, NULL);
    is_counting = 1;
}

/* The end of this thread's stack: for another thread than the first one, the end of its frames. */
static uintptr_t *stack_end(void) {
    return (uintptr_t *)(getpid() == gettid() ? __libc_stack_end : (void *)pthread_self());
}

/* Reports the first refusal. No frame pointers lead from call to call, so each word of the stack counts that points
   into the program's code: it may also be left from an earlier call. */
static void tell(const char *kind, long number, size_t amount) {
    char line[MOST_PLACES * 20 + 96];
    if (told_to < 0 || atomic_flag_test_and_set(&is_told))
        return;
    int length = snprintf(line, sizeof line, "%s %ld %zu", kind, number, amount), places = 0;
    uintptr_t *word = __builtin_frame_address(0), *last = stack_end();
    for (int i = 0; i < MOST_WORDS && word < last && places < MOST_PLACES; i++, word++)
        if (code_begin <= *word && *word < code_end) {
            length += snprintf(line + length, sizeof line - length, " %lx", (unsigned long)(*word - base));
            places++;
        }
    line[length++] = '\n';
    syscall(SYS_write, told_to, line, length);
}

/* Whether this allocation is refused. */
static int is_refused(size_t size) {
    if (!is_counting)
        return 0;
    long number = atomic_fetch_add(&allocation_count, 1) + 1;
    if (!is_in(allocations, number))
        return 0;
    tell("allocation", number, size);
    errno = ENOMEM;
    return 1;
}

void *malloc(size_t size) {
    return is_refused(size) ? NULL : __libc_malloc(size);
}

void *calloc(size_t count, size_t size) {
    return is_refused(count * size) ? NULL : __libc_calloc(count, size);
}

void *realloc(void *block, size_t size) {
    return is_refused(size) ? NULL : __libc_realloc(block, size);
}

void *aligned_alloc(size_t alignment, size_t size) {
    return is_refused(size) ? NULL : __libc_memalign(alignment, size);
}

int posix_memalign(void **block, size_t alignment, size_t size) {
    if (is_refused(size))
        return ENOMEM;
    void *made = __libc_memalign(alignment, size);
    if (!made)
        return ENOMEM;
    *block = made;
    return 0;
}

static ssize_t failed(int error) {
    errno = error;
    return -1;
}

static ssize_t broken(const char *kind, long number, size_t before) {
    tell(kind, number, before);
    return failed(EIO);
}

/* Whether the read or the write with this number is one of the first so many from which trouble counts. */
static int is_troubled(long number, long count) {
    return trouble_from <= number && number - trouble_from < count;
}

/* Adds the bytes that were given or taken. */
static ssize_t counted(ssize_t count, atomic_long *bytes) {
    if (count > 0)
        atomic_fetch_add(bytes, count);
    return count;
}

ssize_t read(int descriptor, void *buffer, size_t size) {
    if (descriptor != STDIN_FILENO || !is_counting)
        return syscall(SYS_read, descriptor, buffer, size);
    long number = atomic_fetch_add(&read_count, 1) + 1;
    if (is_in(reads, number))
        return broken("read", number, given_bytes);
    if (is_troubled(number, interrupted_reads))
        return failed(EINTR);
    return counted(syscall(SYS_read, descriptor, buffer, one_byte && size > 1 ? 1 : size), &given_bytes);
}

ssize_t write(int descriptor, const void *buffer, size_t size) {
    if (descriptor != STDOUT_FILENO || !is_counting)
        return syscall(SYS_write, descriptor, buffer, size);
    long number = atomic_fetch_add(&write_count, 1) + 1;
    if (is_in(writes, number))
        return broken("write", number, taken_bytes);
    if (is_troubled(number, interrupted_writes))
        return failed(EINTR);
    if (is_troubled(number, idle_writes))
        return 0;
    return counted(syscall(SYS_write, descriptor, buffer, one_byte && size > 1 ? 1 : size), &taken_bytes);
}
