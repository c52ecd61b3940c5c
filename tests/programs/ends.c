/* A small region with tasks, and then the end that the word names. */
#include <signal.h>
#include <stdio.h>
#include <stdlib.h>
#include <string.h>
#include <sys/wait.h>
#include <unistd.h>

static void work(void) {
    int count = 0;
#pragma omp parallel num_threads(4)
#pragma omp single
    {
        for (int task = 0; task < 8; task++)
#pragma omp task shared(count)
            __atomic_fetch_add(&count, 1, __ATOMIC_SEQ_CST);
#pragma omp taskwait
    }
    printf("worked %d\n", count);
    fflush(stdout);
}

/* Tasks for as long as nobody ends it. */
static void hang(void) {
#pragma omp parallel num_threads(4)
#pragma omp single
    for (int task = 0; task < 3000; task++)
#pragma omp task
        usleep(10000);
}

/* All threads at once, while there is much to write. */
static void crash_together(void) {
#pragma omp parallel num_threads(4)
    {
#pragma omp single
        for (int task = 0; task < 20000; task++)
#pragma omp task
            ;
        *(volatile int *)0 = 1;
    }
}

/* Each process works before and after. */
static void fork_thrice(void) {
    for (int child = 0; child < 3; child++) {
        if (fork()) continue;
        work();
        exit(0);
    }
    while (wait(NULL) > 0) continue;
    work();
}

static void read_line(void) {
    char line[64] = "";
    puts("ready");
    fflush(stdout);
    if (!fgets(line, sizeof line, stdin)) strcpy(line, "nothing\n");
    printf("read %s", line);
}

int main(int count, char **words) {
    const char *word = count > 1 ? words[1] : "well";
    if (strcmp(word, "unused") == 0) return 0;
    if (strcmp(word, "early") == 0) return 5;
    work();
    if (strcmp(word, "exit") == 0) exit(atoi(words[2]));
    if (strcmp(word, "abort") == 0) abort();
    if (strcmp(word, "signal") == 0) raise(atoi(words[2]));
    if (strcmp(word, "hang") == 0) hang();
    if (strcmp(word, "together") == 0) crash_together();
    if (strcmp(word, "forks") == 0) fork_thrice();
    if (strcmp(word, "reads") == 0) read_line();
    if (strcmp(word, "exec") == 0) execl(words[0], words[0], "exec once more", NULL);
}
