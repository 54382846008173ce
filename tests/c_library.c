/* Tries the C library: misuse, names, texts, fields, damaged texts, threads, openings; and plays a script. The exit status is 1 where
 * something isn't so. */
#include "sfc.h"
#include <pthread.h>
#include <stdio.h>
#include <stdlib.h>
#include <string.h>

static uint8_t text[1 << 20];
static size_t length;

#define WANT(what) do { if (!(what)) { fprintf(stderr, "line %d: %s\n", __LINE__, #what); exit(1); } } while (0)

static int named(int32_t (*find)(sfc_handle_t *, const uint8_t *, size_t), sfc_handle_t *plc, const char *name) {
    return find(plc, (const uint8_t *)name, strlen(name));
}

static int point_named(sfc_handle_t *plc, uint8_t program, uint8_t kind, const char *name) {
    return sfc_point(plc, program, kind, (const uint8_t *)name, strlen(name));
}

static int said(sfc_handle_t *plc, const char *line, uint8_t *into, size_t room, size_t *needed) {
    return sfc_command(plc, (const uint8_t *)line, strlen(line), into, room, needed);
}

/* each call on a closed handle, and each number that nothing has */
static void misuse(void) {
    sfc_handle_t plc = SFC_NONE;
    sfc_reply_t reply = {0};
    sfc_status_t status = {0};
    sfc_program_state_t program = {0};
    sfc_point_state_t point = {0};
    int64_t value = 7;
    sfc_task_state_t task = {0};
    sfc_variable_state_t image[6] = {{7, 7}, {7, 7}, {7, 7}, {7, 7}, {7, 7}, {7, 7}};
    uint8_t out[64] = {0};
    size_t needed = 7;
    const uint8_t *name = (const uint8_t *)"Start";
    sfc_close(&plc);
    WANT(sfc_scan(&plc, 0, 0, &reply) == SFC_CLOSED && sfc_single(&plc, 0, 0, 0, &reply) == SFC_CLOSED);
    WANT(sfc_input(&plc, 0, 0, 0) == SFC_CLOSED && sfc_force(&plc, 0, 0, 0) == SFC_CLOSED && sfc_release(&plc, 0, 0) == SFC_CLOSED);
    WANT(sfc_reset(&plc, 0, 0) == SFC_CLOSED && sfc_read(&plc, 0, 0, &reply) == SFC_CLOSED);
    WANT(sfc_break(&plc, 0, SFC_STEP, 0, SFC_NO_CONDITION, 0) == SFC_CLOSED && sfc_unbreak(&plc, 0, SFC_STEP, 0, 0) == SFC_CLOSED);
    WANT(sfc_stop(&plc, 0) == SFC_CLOSED && sfc_go(&plc, 0) == SFC_CLOSED && sfc_end(&plc, 0) == SFC_CLOSED);
    WANT(sfc_value(&plc, 0, &value) == SFC_CLOSED && value == 7 && sfc_forced(&plc, 0) == SFC_CLOSED);
    WANT(sfc_status(&plc, &status) == SFC_CLOSED && sfc_program_state(&plc, 0, &program) == SFC_CLOSED);
    WANT(sfc_point_state(&plc, 0, SFC_STEP, 0, &point) == SFC_CLOSED);
    WANT(sfc_variable(&plc, name, 5) == SFC_CLOSED && sfc_task(&plc, name, 5) == SFC_CLOSED && sfc_program(&plc, name, 5) == SFC_CLOSED);
    WANT(sfc_point(&plc, 0, SFC_STEP, name, 5) == SFC_CLOSED && sfc_count(&plc, SFC_TASK, 0) == SFC_CLOSED);
    WANT(sfc_name(&plc, SFC_TASK, 0, 0, out, sizeof out, &needed) == SFC_CLOSED && needed == 0);
    WANT(sfc_command(&plc, name, 5, out, sizeof out, &needed) == SFC_CLOSED && needed == 0);
    WANT(sfc_image_text(&plc, out, sizeof out, &needed) == SFC_CLOSED && needed == 0);
    WANT(sfc_image(&plc, image, 6) == SFC_CLOSED && image[0].value == 7 && sfc_task_state(&plc, 0, &task) == SFC_CLOSED);
    sfc_about_t about = {7, 7, 7};
    sfc_next_scan_t next = {7, 7};
    sfc_advanced_t did = {7, 7, 7, 7, 7};
    sfc_chart_fault_t wrong = {7, 7, 7, 7};
    WANT(sfc_about(&plc, 0, &about) == SFC_CLOSED && about.var_type == 7 && sfc_next(&plc, &next) == SFC_CLOSED && next.task == 7);
    WANT(sfc_location(&plc, 0, out, sizeof out, &needed) == SFC_CLOSED && needed == 0);
    WANT(sfc_advance(&plc, 0, &did) == SFC_CLOSED && did.scans == 7 && sfc_save(&plc, 0) == SFC_CLOSED && sfc_restore(&plc, 0) == SFC_CLOSED);
    WANT(sfc_break_when(&plc, 0, SFC_STEP, 0, name, 5, 0) == SFC_CLOSED && sfc_break_when(&plc, 0, 3, 0, name, 5, 0) == SFC_UNKNOWN);
    WANT(out[0] == 0);

    WANT(sfc_open(text, 0, &plc) == 4 && sfc_open(text, length / 2, &plc) == 4 && sfc_status(&plc, &status) == SFC_CLOSED);
    WANT(sfc_open_with(text, length, name, 5, &plc) == SFC_NO_LINE && sfc_open_with(text, 1, name, 0, &plc) == 4 && plc.at == NULL);
    WANT(sfc_open(text, length, &plc) == 0);
    WANT(sfc_open(name, 5, &plc) == 4 && sfc_open_with(text, length, name, 5, &plc) == SFC_NO_LINE && sfc_status(&plc, &status) == 0);
    int start = named(sfc_variable, &plc, "start"), pump = named(sfc_variable, &plc, "Pump");
    WANT(start >= 0 && pump >= 0 && named(sfc_variable, &plc, "Absent") == SFC_UNKNOWN && sfc_variable(&plc, name, 0) == SFC_UNKNOWN);
    WANT(named(sfc_task, &plc, "Absent") == SFC_UNKNOWN && named(sfc_program, &plc, "Absent") == SFC_UNKNOWN);
    WANT(named(sfc_variable, &plc, "Pump1.Start") == SFC_UNKNOWN && named(sfc_variable, &plc, "Absent.Start") == SFC_UNKNOWN);
    WANT(named(sfc_variable, &plc, "%IX9") == SFC_UNKNOWN && named(sfc_variable, &plc, "%") == SFC_UNKNOWN);
    WANT(point_named(&plc, 0, SFC_STEP, "idle") == 0 && point_named(&plc, 9, SFC_STEP, "idle") == SFC_UNKNOWN && point_named(&plc, 0, 3, "idle") == SFC_UNKNOWN);
    WANT(point_named(&plc, 0, SFC_TRANSITION, "Start") == SFC_UNKNOWN && point_named(&plc, 0, SFC_ACTION, "Start") == SFC_UNKNOWN);
    WANT(sfc_count(&plc, 6, 0) == SFC_UNKNOWN && sfc_count(&plc, SFC_STEP, 9) == SFC_UNKNOWN && sfc_count(&plc, SFC_TASK, 9) == 1);
    WANT(sfc_name(&plc, 6, 0, 0, out, sizeof out, &needed) == SFC_UNKNOWN && sfc_name(&plc, SFC_STEP, 0, 3, out, sizeof out, &needed) == SFC_UNKNOWN);
    WANT(sfc_name(&plc, SFC_STEP, 9, 0, out, sizeof out, &needed) == SFC_UNKNOWN && needed == 0 && out[0] == 0);
    WANT(sfc_name(&plc, SFC_STEP, 0, 0, out, 3, &needed) == SFC_SHORT && needed == 4 && out[0] == 0);
    WANT(sfc_image(&plc, image, 4) == SFC_SHORT && image[0].value == 7 && sfc_task_state(&plc, 1, &task) == SFC_UNKNOWN && task.next == 0);
    WANT(sfc_image_text(&plc, out, 3, &needed) == SFC_SHORT && needed > 3 && out[0] == 0);
    WANT(said(&plc, "T#0s SCAN", out, sizeof out, &needed) == SFC_NO_LINE && said(&plc, "SCAN Main", out, sizeof out, &needed) == SFC_NO_LINE);
    WANT(said(&plc, "T#0s STOP\nT#0s GO", out, sizeof out, &needed) == SFC_NO_LINE && needed == 0 && out[0] == 0);
    WANT(said(&plc, "T#0s BREAK Pump1 STEP Idle WHEN Start", out, sizeof out, &needed) == SFC_UNKNOWN && needed == 0 && out[0] == 0);
    WANT(said(&plc, "T#0s SCAN Main", out, 9, &needed) == SFC_SHORT && needed == 75 && out[0] == 0);
    WANT(said(&plc, "; nothing", out, sizeof out, &needed) == 0 && needed == 0 && said(&plc, "", out, sizeof out, &needed) == 0);
    WANT(sfc_explain(0, out, sizeof out, &needed) == SFC_UNKNOWN && sfc_explain(43, out, sizeof out, &needed) == SFC_UNKNOWN && needed == 0);
    WANT(sfc_explain(29, out, sizeof out, &needed) == SFC_SHORT && needed > sizeof out && out[0] == 0);
    WANT(sfc_input(&plc, (uint16_t)start, 2, 0) == SFC_NO_VALUE && sfc_force(&plc, (uint16_t)start, -1, 0) == SFC_NO_VALUE);
    WANT(sfc_input(&plc, 65535, 0, 0) == 24 && sfc_input(&plc, (uint16_t)pump, 1, 0) == 26 && sfc_release(&plc, (uint16_t)pump, 0) == 27);
    WANT(sfc_scan(&plc, 255, 0, &reply) == 31 && sfc_reset(&plc, 255, 0) == 32 && sfc_scan(&plc, 0, -1, &reply) == 33);
    WANT(sfc_break(&plc, 0, 3, 0, SFC_NO_CONDITION, 0) == SFC_UNKNOWN && sfc_unbreak(&plc, 0, 3, 0, 0) == SFC_UNKNOWN);
    WANT(sfc_break(&plc, 0, SFC_STEP, 999, SFC_NO_CONDITION, 0) == 37 && sfc_unbreak(&plc, 0, SFC_STEP, 0, 0) == 37);
    WANT(sfc_break(&plc, 0, SFC_STEP, 0, 0, 0) == 42 && sfc_break(&plc, 9, SFC_STEP, 0, SFC_NO_CONDITION, 0) == 32);
    WANT(sfc_value(&plc, 65535, &value) == SFC_UNKNOWN && value == 7 && sfc_forced(&plc, 65535) == SFC_UNKNOWN);
    WANT(sfc_program_state(&plc, 9, &program) == SFC_UNKNOWN && sfc_point_state(&plc, 0, 3, 0, &point) == SFC_UNKNOWN);
    WANT(sfc_point_state(&plc, 9, SFC_STEP, 0, &point) == SFC_UNKNOWN && sfc_point_state(&plc, 0, SFC_ACTION, 999, &point) == SFC_UNKNOWN);
    WANT(sfc_about(&plc, 65535, &about) == SFC_UNKNOWN && about.var_type == 7 && sfc_save(&plc, 1) == SFC_UNKNOWN);
    WANT(sfc_location(&plc, 65535, out, sizeof out, &needed) == SFC_UNKNOWN && needed == 0 && sfc_restore(&plc, 0) == SFC_UNKNOWN);
    WANT(sfc_location(&plc, (uint16_t)start, out, 5, &needed) == SFC_SHORT && needed == 6 && out[0] == 0);
    WANT(sfc_break_when(&plc, 0, SFC_STEP, 0, name, 0, 0) == SFC_NO_EXPRESSION);
    WANT(sfc_break_when(&plc, 0, SFC_STEP, 0, (const uint8_t *)"1 +", 3, 0) == SFC_NO_EXPRESSION);
    WANT(sfc_break_when(&plc, 0, SFC_STEP, 0, (const uint8_t *)"Absent", 6, 0) == SFC_NO_EXPRESSION);
    WANT(sfc_break_when(&plc, 0, SFC_STEP, 0, (const uint8_t *)"Idle.T", 6, 0) == SFC_NO_EXPRESSION);
    WANT(sfc_break_when(&plc, 0, SFC_STEP, 999, name, 5, 0) == 37 && sfc_break_when(&plc, 9, SFC_STEP, 0, name, 5, 0) == 32);
    WANT(sfc_break_when(&plc, 0, SFC_STEP, 0, name, 5, -1) == 33 && sfc_break(&plc, 0, SFC_STEP, 0, 0, 0) == 42);
    WANT(sfc_why(name, 5, &wrong, out, 3, &needed) == SFC_SHORT && wrong.number == 4 && wrong.line == 1 && needed > sizeof out && out[0] == 0);
    WANT(sfc_version(out, 1, &needed) == SFC_SHORT && needed == 5 && out[0] == 0);
    WANT(sfc_go(&plc, 0) == 36 && sfc_single(&plc, 0, 0, 0, &reply) == 36);
    WANT(sfc_status(&plc, &status) == 0 && status.accepted == 0 && status.instant == 0 && status.mode == SFC_RUNNING);
    WANT(sfc_end(&plc, 5) == 0 && sfc_scan(&plc, 0, 5, &reply) == SFC_ENDED);
    WANT(sfc_next(&plc, &next) == SFC_UNKNOWN && next.task == 7 && sfc_advance(&plc, 1000000, &did) == SFC_ENDED);
    WANT(did.scans == 0 && did.instant == -1 && did.task == -1 && did.faulted == 0 && did.end == SFC_ENDED);
    sfc_close(&plc);
    sfc_close(&plc);
    WANT(plc.at == NULL && sfc_status(&plc, &status) == SFC_CLOSED);
}

/* each field of each struct, on the pump; the instants and answers are those that docs/FORMATS.md and the chart give */
static void fields(void) {
    sfc_handle_t plc = SFC_NONE;
    sfc_reply_t reply = {0};
    sfc_status_t status = {0};
    sfc_program_state_t program = {0};
    sfc_point_state_t idle = {0}, pumping = {0}, first = {0};
    int64_t value = 0;
    WANT(sfc_open(text, length, &plc) == 0);
    uint16_t start = (uint16_t)named(sfc_variable, &plc, "Start"), pump = (uint16_t)named(sfc_variable, &plc, "Pump");
    WANT(sfc_scan(&plc, 0, 0, &reply) == 0 && reply.ran == 1 && reply.faulted == 0 && reply.skipped == 0 && reply.overruns == 0);
    WANT(reply.next == -1 && reply.first == -1 && reply.hit == 0 && reply.value == 0);
    WANT(sfc_scan(&plc, 0, 150000, &reply) == SFC_NOT_DUE && reply.next == 200000 && reply.ran == 0);
    WANT(sfc_break(&plc, 0, SFC_STEP, 1, SFC_NO_CONDITION, 150000) == 0 && sfc_input(&plc, start, 1, 150000) == 0);
    WANT(sfc_scan(&plc, 0, 600000, &reply) == 0 && reply.hit == 1 && reply.overruns == 2);
    WANT(sfc_value(&plc, pump, &value) == 0 && value == 1 && sfc_read(&plc, pump, 700000, &reply) == 0 && reply.value == 1);
    WANT(sfc_point_state(&plc, 0, SFC_STEP, 0, &idle) == 0 && idle.active == 0 && idle.happened == 0 && idle.elapsed == 600000);
    WANT(sfc_point_state(&plc, 0, SFC_STEP, 1, &pumping) == 0 && pumping.active == 1 && pumping.happened == 1 && pumping.elapsed == 0);
    WANT(sfc_point_state(&plc, 0, SFC_TRANSITION, 0, &first) == 0 && first.happened == 1 && first.active == 0 && first.elapsed == 0);
    WANT(sfc_scan(&plc, 0, 800000, &reply) == SFC_STOPPED && sfc_single(&plc, 0, 50000, 900000, &reply) == 0 && reply.hit == 0);
    WANT(sfc_point_state(&plc, 0, SFC_STEP, 1, &pumping) == 0 && pumping.elapsed == 50000 && pumping.happened == 0);
    WANT(sfc_status(&plc, &status) == 0 && status.instant == 650000 && status.accepted == 6 && status.mode == SFC_HALTED);
    WANT(sfc_unbreak(&plc, 0, SFC_STEP, 1, 900000) == 0 && sfc_go(&plc, 900000) == 0 && sfc_status(&plc, &status) == 0);
    WANT(status.mode == SFC_RUNNING && sfc_program_state(&plc, 0, &program) == 0 && program.scans == 3 && program.fault == 0);
    WANT(program.place == SFC_NO_PLACE && program.number == -1 && program.statement == 0);
    WANT(sfc_forced(&plc, pump) == 0 && sfc_force(&plc, pump, 0, 900000) == 0 && sfc_forced(&plc, pump) == 1);
    WANT(sfc_value(&plc, pump, &value) == 0 && value == 0 && sfc_release(&plc, pump, 900000) == 0);
    WANT(sfc_value(&plc, pump, &value) == 0 && value == 1 && sfc_stop(&plc, 900000) == 0 && sfc_stop(&plc, 900000) == 35);
    sfc_close(&plc);
}

/* names, counts and texts of the pump, as its chart has them */
static void texts(void) {
    static const char *const variables[] = {"Start", "Stop", "Pump", "IdleLamp", "RunOnLamp"};
    sfc_handle_t plc = SFC_NONE;
    sfc_text_fault_t fault = {7, 7};
    sfc_task_state_t task = {0};
    sfc_variable_state_t image[6] = {{0}};
    uint8_t out[4096];
    size_t needed = 0;
    WANT(sfc_check(text, length, &fault) == 0 && fault.line == 0 && fault.limit == 0);
    WANT(sfc_check((const uint8_t *)"(*\n*)\n;", 7, &fault) == 4 && fault.line == 3 && fault.limit == 0);
    const char *script = "T#0s BREAK Pump1 STEP Pumping WHEN Stop\nT#0s BREAK Pump1 ACTION Pump WHEN Start AND NOT Stop\n";
    WANT(sfc_open_with(text, length, (const uint8_t *)script, strlen(script), &plc) == 0);
    WANT(sfc_count(&plc, SFC_STEP, 0) == 3 && sfc_count(&plc, SFC_TRANSITION, 0) == 4 && sfc_count(&plc, SFC_ACTION, 0) == 3);
    WANT(sfc_count(&plc, SFC_VARIABLE, 0) == 5 && sfc_count(&plc, SFC_TASK, 0) == 1 && sfc_count(&plc, SFC_PROGRAM, 0) == 1);
    for (int k = 0; k < 5; k++) {
        WANT(sfc_name(&plc, SFC_VARIABLE, 0, (uint16_t)k, out, sizeof out, &needed) == 0 && needed == strlen(variables[k]));
        WANT(!memcmp(out, variables[k], needed) && named(sfc_variable, &plc, variables[k]) == k);
    }
    WANT(sfc_name(&plc, SFC_STEP, 0, 1, out, 7, &needed) == 0 && needed == 7 && !memcmp(out, "Pumping", 7));
    WANT(sfc_name(&plc, SFC_TRANSITION, 0, 0, out, 0, &needed) == 0 && needed == 0);
    WANT(sfc_name(&plc, SFC_TASK, 0, 0, out, 4, &needed) == 0 && !memcmp(out, "Main", 4));
    WANT(sfc_name(&plc, SFC_PROGRAM, 0, 0, out, 5, &needed) == 0 && !memcmp(out, "Pump1", 5));
    WANT(named(sfc_variable, &plc, "%IX0.1") == 1 && named(sfc_variable, &plc, "%i0.1") == 1 && named(sfc_variable, &plc, "%QX0.2") == 4);
    WANT(point_named(&plc, 0, SFC_ACTION, "pump") == 1 && point_named(&plc, 0, SFC_STEP, "runningon") == 2);
    WANT(sfc_task_state(&plc, 0, &task) == 0 && task.next == 200000 && task.overruns == 0);
    WANT(said(&plc, "T#0s SCAN Main", out, 75, &needed) == 0 && needed == 75);
    WANT(!memcmp(out, "T#0s SCAN Main overruns 0\n  Pump1 1 steps Idle=T#0s cleared - run IdleLamp\n", 75));
    WANT(said(&plc, "T#1ms SCAN Main", out, sizeof out, &needed) == SFC_NOT_DUE && !memcmp(out, "refused 29 NotDue T#200ms\n", needed));
    WANT(said(&plc, "T#1ms BREAK Pump1 ACTION Pump WHEN Start AND NOT Stop", out, sizeof out, &needed) == 0);
    WANT(said(&plc, "T#1ms BREAK Pump1 ACTION Pump WHEN NOT Stop", out, sizeof out, &needed) == SFC_UNKNOWN);
    WANT(sfc_break(&plc, 0, SFC_STEP, 1, 0, 1000) == 0 && sfc_break(&plc, 0, SFC_STEP, 1, 2, 1000) == 42);
    WANT(said(&plc, "T#1ms INPUT Start TRUE", out, sizeof out, &needed) == 0 && said(&plc, "T#500ms SCAN Main", out, 9, &needed) == SFC_SHORT);
    WANT(sfc_task_state(&plc, 0, &task) == 0 && task.next == 200000 && task.overruns == 0);
    WANT(said(&plc, "T#500ms SCAN Main", out, sizeof out, &needed) == 0 && !memcmp(out, "T#500ms SCAN Main overruns 1 hit\n", 33));
    WANT(sfc_task_state(&plc, 0, &task) == 0 && task.next == 600000 && task.overruns == 1);
    WANT(sfc_image(&plc, image, 6) == 0 && image[0].value == 1 && image[2].value == 1 && image[3].value == 0 && image[5].value == 0);
    WANT(sfc_force(&plc, 1, 1, 500000) == 0 && sfc_image(&plc, image, 5) == 0 && image[1].value == 1 && image[1].forced == 1);
    WANT(sfc_image_text(&plc, out, sizeof out, &needed) == 0 && !memcmp(out, "image Start TRUE\nimage Stop TRUE forced\nimage Pump TRUE\n", 56));
    WANT(sfc_explain(29, out, sizeof out, &needed) == 0 && !memcmp(out, "29 NotDue\n", 10));
    sfc_close(&plc);
}

static int text_is(int32_t code, const uint8_t *out, const size_t *needed, const char *wanted) {
    return code == 0 && *needed == strlen(wanted) && !memcmp(out, wanted, *needed);
}

/* types and locations, of the pump and of the mixing station, as their charts declare them */
static void panel(void) {
    sfc_handle_t plc = SFC_NONE;
    sfc_about_t about = {0};
    uint8_t out[64];
    size_t needed = 0;
    WANT(sfc_open(text, length, &plc) == 0);
    WANT(sfc_about(&plc, (uint16_t)named(sfc_variable, &plc, "Start"), &about) == 0);
    WANT(about.var_type == SFC_BOOL && about.area == SFC_INPUT && about.program == -1);
    WANT(sfc_about(&plc, (uint16_t)named(sfc_variable, &plc, "DrainValve"), &about) == 0);
    WANT(about.var_type == SFC_BOOL && about.area == SFC_OUTPUT && about.program == -1);
    WANT(sfc_about(&plc, (uint16_t)named(sfc_variable, &plc, "Tank1.Batches"), &about) == 0);
    WANT(about.var_type == SFC_INT && about.area == SFC_NOWHERE && about.program == 0);
    WANT(sfc_about(&plc, (uint16_t)named(sfc_variable, &plc, "Tank1.DoseTime"), &about) == 0);
    WANT(about.var_type == SFC_TIME && about.area == SFC_NOWHERE && about.program == 0);
    WANT(text_is(sfc_location(&plc, (uint16_t)named(sfc_variable, &plc, "Empty"), out, 6, &needed), out, &needed, "%IX0.2"));
    WANT(text_is(sfc_location(&plc, (uint16_t)named(sfc_variable, &plc, "ReadyLamp"), out, sizeof out, &needed), out, &needed, "%QX0.4"));
    WANT(text_is(sfc_location(&plc, (uint16_t)named(sfc_variable, &plc, "Tank1.Batches"), out, sizeof out, &needed), out, &needed, ""));
    sfc_close(&plc);
}

/* a type, an area and a size each */
static void places(void) {
    static const char chart[] = "PROGRAM P INITIAL_STEP S: END_STEP END_PROGRAM CONFIGURATION C RESOURCE R ON X VAR_GLOBAL "
        "A AT %IW3 : INT; B AT %QW2.1.4 : INT; C AT %MD7 : DINT; D : TIME; E AT %M5.0 : BOOL; F : DINT; END_VAR "
        "TASK T(INTERVAL := T#1ms, PRIORITY := 1); PROGRAM I WITH T : P; END_RESOURCE END_CONFIGURATION";
    static const struct { int32_t type, area; const char *at; } wanted[] = {
        {SFC_INT, SFC_INPUT, "%IW3"}, {SFC_INT, SFC_OUTPUT, "%QW2.1.4"}, {SFC_DINT, SFC_MEMORY_AREA, "%MD7"},
        {SFC_TIME, SFC_NOWHERE, ""}, {SFC_BOOL, SFC_MEMORY_AREA, "%MX5.0"}, {SFC_DINT, SFC_NOWHERE, ""}};
    sfc_handle_t plc = SFC_NONE;
    sfc_about_t about = {0};
    sfc_chart_fault_t wrong = {0};
    uint8_t out[4096];
    size_t needed = 0;
    int32_t code = sfc_open((const uint8_t *)chart, sizeof chart - 1, &plc);
    if (code && sfc_why((const uint8_t *)chart, sizeof chart - 1, &wrong, out, sizeof out, &needed) == 0) fwrite(out, 1, needed, stderr);
    WANT(code == 0);
    for (uint16_t k = 0; k < 6; k++) {
        WANT(sfc_about(&plc, k, &about) == 0 && about.var_type == wanted[k].type && about.area == wanted[k].area && about.program == -1);
        WANT(text_is(sfc_location(&plc, k, out, sizeof out, &needed), out, &needed, wanted[k].at));
    }
    sfc_close(&plc);
}

/* Two tasks, of 10 and 20 ms, the faster one first where both wait (belt.chart). */
static void tasks(void) {
    static const struct { int64_t at; int32_t task; } wanted[] = {{0, 0}, {0, 1}, {10000, 0}, {20000, 0}, {20000, 1}, {30000, 0}};
    sfc_handle_t plc = SFC_NONE, other = SFC_NONE;
    sfc_next_scan_t next = {0};
    sfc_advanced_t did = {0};
    sfc_reply_t reply = {0};
    sfc_status_t status = {0};
    static uint8_t one[65536], two[65536];
    size_t first = 0, second = 0;
    WANT(sfc_open(text, length, &plc) == 0 && sfc_open(text, length, &other) == 0);
    int fast = named(sfc_task, &plc, "Fast"), slow = named(sfc_task, &plc, "Slow");
    WANT(fast == 0 && slow == 1);
    for (size_t k = 0; k < sizeof wanted / sizeof *wanted; k++) {
        WANT(sfc_next(&plc, &next) == 0 && next.instant == wanted[k].at && next.task == wanted[k].task);
        WANT(sfc_scan(&plc, (uint8_t)next.task, next.instant, &reply) == 0);
    }
    WANT(sfc_advance(&other, -1, &did) == 0 && did.scans == 0 && did.end == SFC_REACHED && did.instant == -1 && did.task == -1);
    WANT(sfc_advance(&other, 0, &did) == 0 && did.scans == 2 && did.end == SFC_REACHED && did.instant == 0 && did.task == slow);
    WANT(sfc_advance(&other, 0, &did) == 0 && did.scans == 0 && did.end == SFC_REACHED);
    WANT(sfc_advance(&other, 30000, &did) == 0 && did.scans == 4 && did.end == SFC_REACHED && did.instant == 30000 && did.task == fast);
    WANT(did.faulted == 0);
    WANT(sfc_image_text(&plc, one, sizeof one, &first) == 0 && sfc_image_text(&other, two, sizeof two, &second) == 0);
    WANT(first == second && !memcmp(one, two, first));
    WANT(sfc_next(&other, &next) == 0 && next.instant == 40000 && next.task == fast);
    WANT(sfc_stop(&other, 35000) == 0 && sfc_next(&other, &next) == SFC_UNKNOWN && next.instant == 40000);
    WANT(sfc_advance(&other, 100000, &did) == SFC_STOPPED && did.scans == 0 && did.end == SFC_STOPPED);
    WANT(sfc_go(&other, 85000) == 0 && sfc_next(&other, &next) == 0 && next.instant == 90000 && next.task == fast);
    WANT(sfc_advance(&other, 89999, &did) == 0 && did.scans == 0 && sfc_status(&other, &status) == 0 && status.instant == 35000);
    WANT(sfc_advance(&other, 90000, &did) == 0 && did.scans == 2 && did.instant == 90000 && sfc_status(&other, &status) == 0);
    WANT(status.instant == 40000 && status.accepted == 10);
    sfc_close(&plc);
    sfc_close(&other);
}

/* a hit and a fault end it: the pump's breakpoint, and a division by zero */
static void ends(void) {
    static const char chart[] = "PROGRAM P VAR N : INT := 3; Q : INT; END_VAR INITIAL_STEP S: Count(N); END_STEP "
        "ACTION Count: N := N - 1; Q := 6 / N; END_ACTION END_PROGRAM CONFIGURATION C RESOURCE R ON X "
        "TASK T(INTERVAL := T#10ms, PRIORITY := 1); PROGRAM I WITH T : P; PROGRAM J WITH T : P; END_RESOURCE END_CONFIGURATION";
    sfc_handle_t plc = SFC_NONE;
    sfc_advanced_t did = {0};
    sfc_next_scan_t next = {0};
    sfc_program_state_t program = {0};
    WANT(sfc_open(text, length, &plc) == 0);
    WANT(sfc_break_when(&plc, 0, SFC_STEP, 1, (const uint8_t *)"NOT Start", 9, 0) == 0);
    WANT(sfc_input(&plc, 0, 1, 0) == 0 && sfc_advance(&plc, 1000000, &did) == 0 && did.scans == 6 && did.end == SFC_REACHED);
    WANT(sfc_unbreak(&plc, 0, SFC_STEP, 1, 1000000) == 0 && sfc_input(&plc, 0, 0, 1000000) == 0 && sfc_input(&plc, 1, 1, 1000000) == 0);
    WANT(sfc_break_when(&plc, 0, SFC_STEP, 2, (const uint8_t *)"Pump AND RunningOn.X", 20, 1000000) == 0);
    WANT(sfc_advance(&plc, 9000000, &did) == 0 && did.end == SFC_HIT && did.instant == 1200000 && did.scans == 1 && did.task == 0);
    WANT(sfc_next(&plc, &next) == SFC_UNKNOWN && sfc_advance(&plc, 9000000, &did) == SFC_STOPPED && did.end == SFC_STOPPED);
    WANT(sfc_open((const uint8_t *)chart, sizeof chart - 1, &plc) == 0);
    WANT(sfc_advance(&plc, 1000000, &did) == 0 && did.end == SFC_FAULT && did.scans == 3 && did.instant == 20000 && did.faulted == 3);
    WANT(sfc_program_state(&plc, 1, &program) == 0 && program.fault == 1 && program.scans == 2);
    WANT(program.place == SFC_IN_BODY && program.number == 0 && program.statement == 2);
    WANT(sfc_advance(&plc, 1000000, &did) == 0 && did.end == SFC_REACHED && did.scans == 98 && did.faulted == 0 && did.instant == 1000000);
    sfc_close(&plc);
}

/* whether a program stands so: its scans, its fault, and where that is */
static int stands(sfc_handle_t *plc, uint8_t number, uint64_t scans, int32_t fault, int32_t place, int32_t at, int32_t statement) {
    sfc_program_state_t is = {7, 7, 7, 7, 7};
    return sfc_program_state(plc, number, &is) == 0 && is.scans == scans && is.fault == fault && is.place == place && is.number == at
        && is.statement == statement;
}

/* Where faults are, each kind of place: in the IF of the second declared action, which stands behind the variable Lamp; in the condition of
 * the second transition; in the control of the second variable, which two associations with a time have. N and Left fall by one in each
 * scan, to 0 in the third, at 20 ms; the two associations meet in the second. */
static void faults(void) {
    static const char chart[] = "PROGRAM Count VAR N : INT := 3; Q, R : INT; END_VAR INITIAL_STEP S: Lamp(N); Clear(N); Fill(N); END_STEP "
        "ACTION Clear: R := 0; END_ACTION ACTION Fill: N := N - 1; IF N < 2 THEN R := 1; Q := 6 / N; END_IF; END_ACTION END_PROGRAM "
        "PROGRAM Choose VAR Left : INT := 2; END_VAR INITIAL_STEP A: Down(N); END_STEP STEP B: END_STEP STEP C: END_STEP "
        "TRANSITION FROM A TO B := Left > 9; END_TRANSITION TRANSITION Out FROM A TO C := 6 / Left > 6; END_TRANSITION "
        "ACTION Down: Left := Left - 1; END_ACTION END_PROGRAM "
        "PROGRAM Heat INITIAL_STEP A: Fan(N); END_STEP STEP B: Fan(N); Heater(L, T#1s); Heater(D, T#1s); END_STEP "
        "TRANSITION FROM A TO B := TRUE; END_TRANSITION END_PROGRAM CONFIGURATION K RESOURCE R ON X "
        "VAR_GLOBAL Lamp, Fan, Heater : BOOL; END_VAR TASK T(INTERVAL := T#10ms, PRIORITY := 1); "
        "PROGRAM Count1 WITH T : Count; PROGRAM Choose1 WITH T : Choose; PROGRAM Heat1 WITH T : Heat; END_RESOURCE END_CONFIGURATION";
    sfc_handle_t plc = SFC_NONE;
    sfc_advanced_t did = {0};
    WANT(sfc_open((const uint8_t *)chart, sizeof chart - 1, &plc) == 0);
    for (uint8_t k = 0; k < 3; k++) WANT(stands(&plc, k, 0, 0, SFC_NO_PLACE, -1, 0));
    WANT(point_named(&plc, 0, SFC_ACTION, "Fill") == 2 && point_named(&plc, 1, SFC_TRANSITION, "Out") == 1);
    WANT(point_named(&plc, 2, SFC_ACTION, "Heater") == 1 && sfc_save(&plc, 0) == 0);
    WANT(sfc_advance(&plc, 90000, &did) == 0 && did.end == SFC_FAULT && did.instant == 10000 && did.faulted == 4);
    WANT(stands(&plc, 0, 2, 0, SFC_NO_PLACE, -1, 0) && stands(&plc, 1, 2, 0, SFC_NO_PLACE, -1, 0));
    WANT(stands(&plc, 2, 1, 3, SFC_IN_CONTROL, 1, 0) && sfc_save(&plc, 1) == 0);
    WANT(sfc_advance(&plc, 90000, &did) == 0 && did.end == SFC_FAULT && did.instant == 20000 && did.faulted == 3);
    WANT(stands(&plc, 0, 2, 1, SFC_IN_BODY, 2, 2) && stands(&plc, 1, 2, 1, SFC_IN_CONDITION, 1, 0));
    WANT(stands(&plc, 2, 1, 3, SFC_IN_CONTROL, 1, 0) && sfc_save(&plc, 2) == 0);
    WANT(sfc_reset(&plc, 0, 20000) == 0 && stands(&plc, 0, 0, 0, SFC_NO_PLACE, -1, 0) && stands(&plc, 1, 2, 1, SFC_IN_CONDITION, 1, 0));
    WANT(sfc_reset(&plc, 1, 20000) == 0 && sfc_reset(&plc, 2, 20000) == 0);
    for (uint8_t k = 0; k < 3; k++) WANT(stands(&plc, k, 0, 0, SFC_NO_PLACE, -1, 0));
    WANT(sfc_advance(&plc, 40000, &did) == 0 && did.instant == 40000 && did.faulted == 4 && stands(&plc, 2, 1, 3, SFC_IN_CONTROL, 1, 0));
    WANT(sfc_restore(&plc, 2) == 0 && stands(&plc, 0, 2, 1, SFC_IN_BODY, 2, 2) && stands(&plc, 1, 2, 1, SFC_IN_CONDITION, 1, 0));
    WANT(stands(&plc, 2, 1, 3, SFC_IN_CONTROL, 1, 0) && sfc_advance(&plc, 90000, &did) == 0 && did.end == SFC_REACHED);
    WANT(stands(&plc, 0, 2, 1, SFC_IN_BODY, 2, 2) && sfc_restore(&plc, 1) == 0 && stands(&plc, 0, 2, 0, SFC_NO_PLACE, -1, 0));
    WANT(stands(&plc, 2, 1, 3, SFC_IN_CONTROL, 1, 0) && sfc_advance(&plc, 20000, &did) == 0 && stands(&plc, 0, 2, 1, SFC_IN_BODY, 2, 2));
    WANT(sfc_restore(&plc, 0) == 0 && stands(&plc, 2, 0, 0, SFC_NO_PLACE, -1, 0));
    sfc_close(&plc);
}

/* what was saved is there again: values, forces, breakpoints, the mode, the instants; each number by itself */
static void saves(void) {
    static uint8_t before[4096], after[4096];
    sfc_handle_t plc = SFC_NONE;
    sfc_status_t status = {0}, then = {0};
    sfc_advanced_t did = {0};
    sfc_reply_t reply = {0};
    size_t length_before = 0, length_after = 0;
    int64_t value = 0;
    WANT(sfc_open(text, length, &plc) == 0 && sfc_save(&plc, 0) == 0 && sfc_save(&plc, 2) == SFC_UNKNOWN && sfc_restore(&plc, 1) == SFC_UNKNOWN);
    WANT(sfc_input(&plc, 0, 1, 0) == 0 && sfc_advance(&plc, 600000, &did) == 0 && did.scans == 4);
    WANT(sfc_force(&plc, 1, 0, 700000) == 0 && sfc_break(&plc, 0, SFC_STEP, 2, SFC_NO_CONDITION, 700000) == 0 && sfc_stop(&plc, 700000) == 0);
    WANT(sfc_save(&plc, 1) == 0 && sfc_status(&plc, &then) == 0 && sfc_image_text(&plc, before, sizeof before, &length_before) == 0);
    WANT(sfc_go(&plc, 900000) == 0 && sfc_release(&plc, 1, 900000) == 0 && sfc_unbreak(&plc, 0, SFC_STEP, 2, 900000) == 0);
    WANT(sfc_input(&plc, 0, 0, 900000) == 0 && sfc_input(&plc, 1, 1, 900000) == 0 && sfc_advance(&plc, 5000000, &did) == 0);
    WANT(sfc_value(&plc, 2, &value) == 0 && value == 0 && sfc_restore(&plc, 1) == 0 && sfc_status(&plc, &status) == 0);
    WANT(status.instant == then.instant && status.accepted == then.accepted && status.mode == SFC_HALTED && then.instant == 700000);
    WANT(sfc_image_text(&plc, after, sizeof after, &length_after) == 0 && length_after == length_before && !memcmp(after, before, length_after));
    WANT(sfc_forced(&plc, 1) == 1 && sfc_scan(&plc, 0, 800000, &reply) == SFC_STOPPED && sfc_go(&plc, 699999) == 28 && sfc_go(&plc, 700000) == 0);
    WANT(sfc_restore(&plc, 0) == 0 && sfc_status(&plc, &status) == 0 && status.accepted == 0 && status.instant == 0 && status.mode == SFC_RUNNING);
    WANT(sfc_value(&plc, 2, &value) == 0 && value == 0 && sfc_advance(&plc, 600000, &did) == 0 && did.scans == 4);
    WANT(sfc_save(&plc, 0) == 0 && sfc_restore(&plc, 1) == 0 && sfc_status(&plc, &status) == 0 && status.instant == 700000);
    WANT(sfc_restore(&plc, 0) == 0 && sfc_status(&plc, &status) == 0 && status.instant == 600000 && status.accepted == 4);
    WANT(sfc_break_when(&plc, 0, SFC_STEP, 1, (const uint8_t *)"Start", 5, 600000) == 0 && sfc_restore(&plc, 1) == 0);
    WANT(sfc_break(&plc, 0, SFC_STEP, 1, 0, 700000) == 0 && sfc_break(&plc, 0, SFC_STEP, 1, 1, 700000) == 42);
    WANT(sfc_open(text, length, &plc) == 0 && sfc_restore(&plc, 0) == SFC_UNKNOWN);
    sfc_close(&plc);
}

/* 1,000 values of the inputs from one snapshot, each as from the opening */
static void forks(void) {
    static uint8_t one[4096], two[4096];
    sfc_handle_t plc = SFC_NONE, other = SFC_NONE;
    sfc_advanced_t did = {0};
    size_t first = 0, second = 0;
    WANT(sfc_open(text, length, &plc) == 0 && sfc_advance(&plc, 400000, &did) == 0 && sfc_save(&plc, 0) == 0);
    for (int k = 0; k < 1000; k++) {
        WANT(sfc_restore(&plc, 0) == 0 && sfc_open(text, length, &other) == 0 && sfc_advance(&other, 400000, &did) == 0);
        for (int step = 0; step < 3; step++) {
            int64_t start = k >> step & 1, stop = k >> (step + 3) & 1, t = 400000 + 200000 * step + k;
            WANT(sfc_input(&plc, 0, start, t) == 0 && sfc_input(&plc, 1, stop, t) == 0 && sfc_advance(&plc, t + 150000, &did) == 0);
            WANT(sfc_input(&other, 0, start, t) == 0 && sfc_input(&other, 1, stop, t) == 0 && sfc_advance(&other, t + 150000, &did) == 0);
        }
        WANT(sfc_image_text(&plc, one, sizeof one, &first) == 0 && sfc_image_text(&other, two, sizeof two, &second) == 0);
        WANT(first == second && !memcmp(one, two, first));
    }
    sfc_close(&plc);
    sfc_close(&other);
}

/* ---- memory that is refused */

void *__real_malloc(size_t size);
void *__real_realloc(void *at, size_t size);
void __real_free(void *at);
void *__wrap_malloc(size_t size);
void *__wrap_realloc(void *at, size_t size);
void __wrap_free(void *at);

/* How many requests are granted before all others are refused, and how many blocks are held; the library's and this file's own alone. */
static long granted = -1, held;

static int is_refused(void) {
    if (granted < 0) return 0;
    return granted == 0 || --granted < 0;
}

void *__wrap_malloc(size_t size) {
    void *at = is_refused() ? NULL : __real_malloc(size);
    __atomic_add_fetch(&held, at != NULL, __ATOMIC_SEQ_CST);
    return at;
}

void *__wrap_realloc(void *at, size_t size) {
    void *to = is_refused() ? NULL : __real_realloc(at, size);
    __atomic_add_fetch(&held, !at && to, __ATOMIC_SEQ_CST);
    return to;
}

void __wrap_free(void *at) {
    __atomic_sub_fetch(&held, at != NULL, __ATOMIC_SEQ_CST);
    __real_free(at);
}

/* One call of each kind that takes memory: what it answers. */
static int32_t asks(int kind, sfc_handle_t *plc, uint8_t *out, size_t room) {
    static const char line[] = "T#800ms SCAN Main", wait[] = "Start AND NOT Stop";
    static sfc_next_scan_t next;
    static sfc_chart_fault_t wrong;
    size_t needed = 0;
    switch (kind) {
    case 0: return sfc_save(plc, 0);
    case 1: return sfc_save(plc, 1);
    case 2: return sfc_next(plc, &next);
    case 3: return sfc_break_when(plc, 0, SFC_STEP, 2, (const uint8_t *)wait, sizeof wait - 1, 700000);
    case 4: return sfc_command(plc, (const uint8_t *)line, sizeof line - 1, out, room, &needed);
    case 5: return sfc_image_text(plc, out, room, &needed);
    case 6: return sfc_name(plc, SFC_STEP, 0, 0, out, room, &needed);
    case 7: return sfc_location(plc, 0, out, room, &needed);
    case 8: return sfc_why(text, length / 2, &wrong, out, room, &needed);
    case 9: return sfc_explain(29, out, room, &needed);
    default: return sfc_open(text, length, plc);
    }
}

/* With the n-th request and all behind it refused each call answers -4, and all is as it was; with enough granted it answers 0. */
static void refusals(void) {
    static uint8_t out[1 << 16], one[4096], two[4096];
    sfc_advanced_t did = {0};
    size_t first = 0, second = 0;
    for (int kind = 0; kind < 11; kind++) {
        int32_t code = SFC_MEMORY;
        for (long n = 0; code; n += 1 + n / 16) {
            sfc_handle_t plc = SFC_NONE;
            sfc_status_t before = {0}, after = {0};
            long blocks = held;
            WANT(sfc_open(text, length, &plc) == 0 && sfc_input(&plc, 0, 1, 0) == 0 && sfc_advance(&plc, 600000, &did) == 0);
            WANT(sfc_save(&plc, 0) == 0 && sfc_status(&plc, &before) == 0 && sfc_image_text(&plc, one, sizeof one, &first) == 0);
            granted = n;
            code = asks(kind, &plc, out, sizeof out);
            WANT(sfc_advance(&plc, 600000, &did) == 0 && sfc_restore(&plc, 7) == SFC_UNKNOWN);
            granted = -1;
            WANT((code == 0 || code == SFC_MEMORY) && n < 100000);
            if (code) {
                WANT(sfc_status(&plc, &after) == 0 && after.accepted == before.accepted && after.instant == before.instant);
                WANT(sfc_image_text(&plc, two, sizeof two, &second) == 0 && first == second && !memcmp(one, two, first));
                WANT(sfc_restore(&plc, 1) == SFC_UNKNOWN && sfc_break(&plc, 0, SFC_STEP, 0, 0, 700000) == 42);
                WANT(sfc_restore(&plc, 0) == 0 && sfc_advance(&plc, 800000, &did) == 0 && did.scans == 1);
            }
            sfc_close(&plc);
            WANT(held == blocks);
        }
    }
}

/* prints the report of a text; its number is that of sfc_check */
static void why(void) {
    static uint8_t out[1 << 16];
    size_t needed = 7;
    sfc_chart_fault_t wrong = {7, 7, 7, 7};
    sfc_text_fault_t fault = {0};
    WANT(sfc_why(text, length, &wrong, out, sizeof out, &needed) == 0 && wrong.number == sfc_check(text, length, &fault));
    WANT((wrong.number == 0) == (needed == 0) && (wrong.number == 0) == (wrong.line == 0) && (wrong.number == 0) == (wrong.column == 0));
    fwrite(out, 1, needed, stdout);
}

/* plays a script line by line, and prints what replay prints */
static void play(const char *path) {
    static uint8_t script[1 << 20], out[1 << 16];
    FILE *file = fopen(path, "rb");
    WANT(file);
    size_t size = fread(script, 1, sizeof script, file), needed = 0;
    fclose(file);
    sfc_handle_t plc = SFC_NONE;
    WANT(sfc_open_with(text, length, script, size, &plc) == 0);
    for (size_t at = 0, end; at < size; at = end + 1) {
        for (end = at; end < size && script[end] != '\n';) end++;
        WANT(sfc_command(&plc, script + at, end - at, out, sizeof out, &needed) >= 0);
        fwrite(out, 1, needed, stdout);
    }
    WANT(sfc_image_text(&plc, out, sizeof out, &needed) == 0);
    fwrite(out, 1, needed, stdout);
    sfc_close(&plc);
}

static void opens(long count) {
    sfc_handle_t plc = SFC_NONE;
    for (long k = 0; k < count; k++) {
        WANT(sfc_open(text, length, &plc) == 0);
        if (k % 2) sfc_close(&plc);
    }
    sfc_close(&plc);
}

/* texts with bytes changed, removed or doubled: each is opened, or refused by a number of the reader or the loader */
static void damaged(long count) {
    static uint8_t other[1 << 20];
    uint64_t seed = 88172645463325252ULL;
    long opened = 0;
    sfc_reply_t reply = {0};
    for (long k = 0; k < count; k++) {
        size_t n = length;
        memcpy(other, text, length);
        for (int hits = 0; hits < 3; hits++) {
            seed ^= seed << 13, seed ^= seed >> 7, seed ^= seed << 17;
            size_t at = (size_t)(seed % n);
            if (seed >> 60 < 8) other[at] = (uint8_t)(seed >> 32);
            else if (seed >> 60 < 12) memmove(other + at, other + at + 1, --n - at);
            else memmove(other + at + 1, other + at, n++ - at);
        }
        sfc_handle_t plc = SFC_NONE;
        int32_t code = sfc_open(other, n, &plc);
        sfc_text_fault_t fault = {0};
        WANT(code >= 0 && code <= 22 && (code == 0) == (plc.at != NULL) && sfc_check(other, n, &fault) == code);
        WANT((fault.line > 0) == (code >= 1 && code <= 7) && (fault.limit > 0) == (code == 22));
        if (k % 10 == 0) {
            static uint8_t out[1 << 16];
            size_t needed = 0;
            sfc_chart_fault_t wrong = {7, 7, 7, 7};
            WANT(sfc_why(other, n, &wrong, out, sizeof out, &needed) == 0 && wrong.number == code && (needed == 0) == (code == 0));
            WANT(wrong.line <= n + 1 && wrong.column <= n + 1 && wrong.length <= n);
        }
        opened += code == 0;
        if (code == 0) WANT(sfc_scan(&plc, 0, 0, &reply) == 0 || reply.ran == 0);
        sfc_close(&plc);
    }
    WANT(opened > 0 && opened < count);
}

static void *run(void *into) {
    sfc_handle_t plc = SFC_NONE;
    sfc_reply_t reply = {0};
    WANT(sfc_open(text, length, &plc) == 0);
    for (int64_t k = 0; k < 100000; k++) WANT(sfc_scan(&plc, 0, k * 200000, &reply) == 0);
    *(sfc_program_state_t *)into = (sfc_program_state_t){0};
    WANT(sfc_program_state(&plc, 0, into) == 0);
    sfc_close(&plc);
    return NULL;
}

static void threads(void) {
    pthread_t one, other;
    sfc_program_state_t first, second;
    WANT(pthread_create(&one, NULL, run, &first) == 0 && pthread_create(&other, NULL, run, &second) == 0);
    WANT(pthread_join(one, NULL) == 0 && pthread_join(other, NULL) == 0);
    WANT(first.scans == 100000 && second.scans == 100000 && first.fault == 0 && second.fault == 0);
}

int main(int argc, char **argv) {
    FILE *file = argc >= 3 ? fopen(argv[2], "rb") : NULL;
    if (!file) return 2;
    length = fread(text, 1, sizeof text - 8, file);
    fclose(file);
    if (!strcmp(argv[1], "misuse")) misuse();
    else if (!strcmp(argv[1], "fields")) fields();
    else if (!strcmp(argv[1], "texts")) texts();
    else if (!strcmp(argv[1], "play") && argc == 4) play(argv[3]);
    else if (!strcmp(argv[1], "panel")) panel();
    else if (!strcmp(argv[1], "places")) places();
    else if (!strcmp(argv[1], "tasks")) tasks();
    else if (!strcmp(argv[1], "ends")) ends();
    else if (!strcmp(argv[1], "faults")) faults();
    else if (!strcmp(argv[1], "saves")) saves();
    else if (!strcmp(argv[1], "forks")) forks();
    else if (!strcmp(argv[1], "refusals")) refusals();
    else if (!strcmp(argv[1], "why")) why();
    else if (!strcmp(argv[1], "threads")) threads();
    else if (!strcmp(argv[1], "damaged") && argc == 4) damaged(atol(argv[3]));
    else if (!strcmp(argv[1], "opens") && argc == 4) opens(atol(argv[3]));
    else return 2;
    return 0;
}
