/* device ROUNDS: in each round detached tasks start transfers, whose events a thread fulfils that is not OpenMP's, as that
   of a device; and a taskwait waits for them. */
#include <omp.h>
#include <pthread.h>
#include <sched.h>
#include <stdatomic.h>
#include <stdbool.h>
#include <stdlib.h>

enum { TRANSFERS = 4, MOST = 1 << 12 };

static omp_event_handle_t started[MOST];
static _Atomic int count;
static _Atomic bool is_over;
static pthread_mutex_t starting = PTHREAD_MUTEX_INITIALIZER;

static void *run_device(void *unused) {
    for (int done = 0; done < atomic_load(&count) || !atomic_load(&is_over);) {
        if (done < atomic_load(&count)) omp_fulfill_event(started[done++]);
        else sched_yield();
    }
    return unused;
}

static void start_transfer(omp_event_handle_t event) {
    pthread_mutex_lock(&starting);
    started[atomic_load(&count)] = event;
    atomic_fetch_add(&count, 1);
    pthread_mutex_unlock(&starting);
}

int main(int word_count, char **words) {
    int rounds = word_count > 1 ? atoi(words[1]) : 2;
    pthread_t device;
    if (rounds > MOST / TRANSFERS || pthread_create(&device, NULL, run_device, NULL)) return 1;
#pragma omp parallel
#pragma omp single
    for (int round = 0; round < rounds; round++) {
        for (int transfer = 0; transfer < TRANSFERS; transfer++) {
            omp_event_handle_t event;
#pragma omp task detach(event)
            start_transfer(event);
        }
#pragma omp taskwait
    }
    atomic_store(&is_over, true);
    return pthread_join(device, NULL);
}
