/* What the C library takes: library CHART TASK INTERVAL SCANS RESOURCES, the interval in microseconds. A line each: so many scans one by one,
 * as one sfc_advance, by two threads with a handle each, from a snapshot each; and the memory of so many resources, and of what is saved. */
#define _POSIX_C_SOURCE 200809L
#include "sfc.h"
#include <pthread.h>
#include <stdio.h>
#include <stdlib.h>
#include <string.h>
#include <time.h>
#include <unistd.h>

static uint8_t text[1 << 20];
static size_t length;
static uint8_t task;
static int64_t interval, scans;

static double now(void) {
    struct timespec at;
    clock_gettime(CLOCK_MONOTONIC, &at);
    return (double)at.tv_sec + (double)at.tv_nsec / 1e9;
}

/* bytes of this process that are in memory */
static double resident(void) {
    FILE *file = fopen("/proc/self/statm", "r");
    long pages[2] = {0, 0};
    if (!file || fscanf(file, "%ld %ld", pages, pages + 1) != 2) return 0;
    fclose(file);
    return (double)pages[1] * (double)sysconf(_SC_PAGESIZE);
}

static void open_or_end(sfc_handle_t *plc) {
    int32_t code = sfc_open(text, length, plc);
    if (code) exit((fprintf(stderr, "the chart is refused: %d\n", code), 1));
}

static void *one_by_one(void *into) {
    sfc_handle_t plc = SFC_NONE;
    sfc_reply_t did = {0};
    int64_t done = 0;
    open_or_end(&plc);
    for (int64_t k = 0; k < scans; k++) done += sfc_scan(&plc, task, k * interval, &did) == 0;
    sfc_close(&plc);
    *(int64_t *)into = done;
    return NULL;
}

static void tell(const char *what, double seconds, int64_t done) {
    printf("%s\t%lld\t%.3f us each\n", what, (long long)done, seconds * 1e6 / (double)(done ? done : 1));
}

int main(int argc, char **argv) {
    FILE *file = argc == 6 ? fopen(argv[1], "rb") : NULL;
    if (!file) return 2;
    length = fread(text, 1, sizeof text, file);
    fclose(file);
    interval = atoll(argv[3]), scans = atoll(argv[4]);
    sfc_handle_t plc = SFC_NONE;
    open_or_end(&plc);
    int found = sfc_task(&plc, (const uint8_t *)argv[2], strlen(argv[2]));
    if (found < 0) return fprintf(stderr, "no such task\n"), 1;
    task = (uint8_t)found;

    int64_t done = 0, other = 0;
    double from = now();
    one_by_one(&done);
    double alone = now() - from;
    tell("sfc_scan", alone, done);

    sfc_advanced_t did = {0};
    from = now();
    if (sfc_advance(&plc, (scans - 1) * interval, &did)) return 1;
    tell("sfc_advance", now() - from, (int64_t)did.scans);

    pthread_t thread;
    from = now();
    if (pthread_create(&thread, NULL, one_by_one, &other)) return 1;
    one_by_one(&done);
    pthread_join(thread, NULL);
    tell("two threads", now() - from, done + other);

    sfc_next_scan_t next = {0};
    int64_t few = scans / 100;
    from = now();
    for (int64_t k = 0; k < few; k++) done = sfc_next(&plc, &next);
    tell("sfc_next", now() - from, few);

    if (sfc_save(&plc, 0)) return 1;
    from = now();
    for (int64_t k = 0; k < scans; k++) if (sfc_restore(&plc, 0)) return 1;
    tell("sfc_restore", now() - from, scans);

    long resources = atol(argv[5]);
    double before = resident();
    for (long k = 1; k <= resources; k++) if (sfc_save(&plc, (uint16_t)k)) return 1;
    printf("saved\t%ld\t%.0f bytes each\n", resources, (resident() - before) / (double)resources);
    sfc_close(&plc);

    sfc_handle_t *all = calloc((size_t)resources, sizeof *all);
    if (!all) return 1;
    before = resident();
    from = now();
    for (long k = 0; k < resources; k++) open_or_end(all + k);
    tell("sfc_open", now() - from, resources);
    printf("resources\t%ld\t%.0f bytes each\n", resources, (resident() - before) / (double)resources);
    for (long k = 0; k < resources; k++) sfc_close(all + k);
    free(all);
    return 0;
}
