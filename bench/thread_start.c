// What it takes to start threads that do nothing and to wait for their end, which is the least that a tick on cores
// costs: back to back, and after one thread worked alone, as it does between two phases of a tick.
#include <pthread.h>
#include <stdio.h>
#include <time.h>

enum { MOST = 3, ROUNDS = 500 };

static double now(void) {
    struct timespec at;
    clock_gettime(CLOCK_MONOTONIC, &at);
    return (double)at.tv_sec + (double)at.tv_nsec * 1e-9;
}

static void *nothing(void *it) {
    return it;
}

// Seconds for one start and end of so many threads, the mean of all rounds, each after so many seconds of work alone.
static double start_and_join(int threads, double alone) {
    double all = 0;
    for (int round = 0; round < ROUNDS; round++) {
        double begin = now();
        while (now() - begin < alone) {
        }
        pthread_t thread[MOST];
        begin = now();
        for (int k = 0; k < threads; k++)
            if (pthread_create(&thread[k], NULL, nothing, NULL) != 0)
                return -1;
        for (int k = 0; k < threads; k++)
            pthread_join(thread[k], NULL);
        all += now() - begin;
    }
    return all / ROUNDS;
}

int main(void) {
    printf("%-8s %14s %20s\n", "threads", "back to back", "after 2 ms alone");
    for (int threads = 1; threads <= MOST; threads++)
        printf("%-8d %11.0f us %17.0f us\n", threads, start_and_join(threads, 0) * 1e6,
               start_and_join(threads, 0.002) * 1e6);
    return 0;
}
