/* late TASKS SECONDS: so many threads, each woken each millisecond by clock_nanosleep to an absolute instant. Prints a line for each: how late
 * it came in microseconds, median and 99 %, the greatest, and how many releases were missed. */
#define _GNU_SOURCE
#include <pthread.h>
#include <stdio.h>
#include <stdlib.h>
#include <time.h>

#define NANOS 1000000000LL
#define INTERVAL 1000000LL

struct loop { long long begin; int releases; long long *late; int count; int lost; };

static long long now(void) {
    struct timespec t;
    clock_gettime(CLOCK_MONOTONIC, &t);
    return t.tv_sec * NANOS + t.tv_nsec;
}

static void *run(void *given) {
    struct loop *it = given;
    for (long long k = 1; k <= it->releases;) {
        long long due = it->begin + k * INTERVAL;
        struct timespec until = {due / NANOS, due % NANOS};
        while (clock_nanosleep(CLOCK_MONOTONIC, TIMER_ABSTIME, &until, NULL) != 0) {}
        long long late = now() - due;
        it->late[it->count++] = late / 1000;
        it->lost += (int)(late / INTERVAL);
        k += 1 + late / INTERVAL;
    }
    return NULL;
}

static int compare(const void *a, const void *b) {
    long long x = *(const long long *)a, y = *(const long long *)b;
    return x < y ? -1 : x > y;
}

int main(int argc, char **argv) {
    int tasks = argc > 1 ? atoi(argv[1]) : 1, seconds = argc > 2 ? atoi(argv[2]) : 10;
    pthread_t threads[64];
    struct loop loops[64];
    long long begin = now() + 100 * INTERVAL;
    if (tasks < 1 || tasks > 64 || seconds < 1) return 2;
    for (int k = 0; k < tasks; k++) {
        loops[k] = (struct loop){begin, seconds * 1000, malloc(sizeof(long long) * (size_t)(seconds * 1000 + 1)), 0, 0};
        if (!loops[k].late || pthread_create(&threads[k], NULL, run, &loops[k])) return 4;
    }
    for (int k = 0; k < tasks; k++) {
        pthread_join(threads[k], NULL);
        struct loop *it = &loops[k];
        qsort(it->late, (size_t)it->count, sizeof(long long), compare);
        printf("loop T%d wakes %d lost %d late %lld median %lld 99%% %lld most %lld\n", k, it->count, it->lost, it->late[0],
               it->late[it->count / 2], it->late[it->count * 99 / 100], it->late[it->count - 1]);
    }
    return 0;
}
