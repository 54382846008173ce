/* A control loop: reads two keys as terminals, scans at each release, writes one terminal. loop pump.chart */
#define _POSIX_C_SOURCE 200809L
#include "sfc.h"
#include <poll.h>
#include <stdio.h>
#include <string.h>
#include <time.h>
#include <unistd.h>

static uint8_t text[1 << 20];

static int64_t now(void) {
    struct timespec s;
    clock_gettime(CLOCK_MONOTONIC, &s);
    return s.tv_sec * 1000000LL + s.tv_nsec / 1000;
}
static void sleep_until(int64_t t) {
    struct timespec s = {t / 1000000, t % 1000000 * 1000};
    clock_nanosleep(CLOCK_MONOTONIC, TIMER_ABSTIME, &s, NULL);
}
static uint16_t at(sfc_handle_t *plc, const char *location) { return (uint16_t)sfc_variable(plc, (const uint8_t *)location, strlen(location)); }

int main(int argc, char **argv) {
    FILE *file = argc == 2 ? fopen(argv[1], "rb") : NULL;
    if (!file) return 2;
    sfc_handle_t plc = SFC_NONE;
    int32_t refused = sfc_open(text, fread(text, 1, sizeof text, file), &plc);
    if (refused) return fprintf(stderr, "the chart is refused: %d\n", refused), 1;
    uint16_t start = at(&plc, "%IX0.0"), stop = at(&plc, "%IX0.1"), pump = at(&plc, "%QX0.0");
    sfc_task_state_t main_task = {0};
    int64_t begin = now(), on = 0, was = -1;
    for (char key = 0; key != 'q' && main_task.next >= 0; sleep_until(begin + main_task.next)) {
        int64_t t = now() - begin;
        struct pollfd in = {0, POLLIN, 0};
        key = 0;
        if (poll(&in, 1, 0) == 1 && read(0, &key, 1) != 1) key = 'q';
        sfc_input(&plc, start, key == 's', t); /* s starts the pump, h stops it, q ends the loop */
        sfc_input(&plc, stop, key == 'h', t);
        sfc_reply_t did = {0};
        if (sfc_scan(&plc, 0, t, &did) == 0 && did.faulted) sfc_reset(&plc, 0, t);
        sfc_value(&plc, pump, &on);
        if (on != was) printf("%lld us: pump %s, %llu overruns\n", (long long)t, on ? "on" : "off", (unsigned long long)did.overruns);
        was = on;
        sfc_task_state(&plc, 0, &main_task);
    }
    sfc_close(&plc);
    fclose(file);
    return 0;
}
