/* Scans of a task as fast as they go: bench CHART TASK INTERVAL SCANS, the interval in microseconds. */
#define _POSIX_C_SOURCE 200809L
#include "sfc.h"
#include <stdio.h>
#include <stdlib.h>
#include <string.h>
#include <time.h>

static uint8_t text[1 << 20];

int main(int argc, char **argv) {
    FILE *file = argc == 5 ? fopen(argv[1], "rb") : NULL;
    if (!file) return 2;
    sfc_handle_t plc = SFC_NONE;
    int32_t refused = sfc_open(text, fread(text, 1, sizeof text, file), &plc);
    if (refused) return fprintf(stderr, "the chart is refused: %d\n", refused), 1;
    int task = sfc_task(&plc, (const uint8_t *)argv[2], strlen(argv[2]));
    int64_t interval = atoll(argv[3]), scans = atoll(argv[4]), done = 0;
    if (task < 0) return fprintf(stderr, "no such task\n"), 1;
    sfc_reply_t did = {0};
    struct timespec from, to;
    clock_gettime(CLOCK_MONOTONIC, &from);
    for (int64_t k = 0; k < scans; k++) done += sfc_scan(&plc, (uint8_t)task, k * interval, &did) == 0;
    clock_gettime(CLOCK_MONOTONIC, &to);
    double seconds = (double)(to.tv_sec - from.tv_sec) + (double)(to.tv_nsec - from.tv_nsec) / 1e9;
    printf("%lld scans, %llu overruns\n", (long long)done, (unsigned long long)did.overruns);
    fprintf(stderr, "%.3f us a scan\n", seconds * 1e6 / (double)(scans ? scans : 1));
    sfc_close(&plc);
    fclose(file);
    return 0;
}
