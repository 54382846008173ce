/* sfc.h: a runtime and debugger for Sequential Function Charts (IEC 61131-3:2003) as a C library.
 *
 * Link with libsfc.a, or load libsfc.so; tools/c-library builds both. docs/EMBEDDING.md has more.
 *
 * What the caller must uphold; none of it is checked:
 *
 * - A handle begins as SFC_NONE. Only the library writes it. It is never copied. A handle that is lost leaks its memory.
 * - One call at a time for each handle. Different handles are independent.
 * - Each pointer is not NULL, also one to 0 bytes, and is aligned for its type. It points to initialised memory that is there
 *   during the call. What a call writes overlaps nothing else that the call is given. The library keeps no pointer.
 * - No call from a signal handler, and none is left by longjmp or by the cancelling of a thread.
 * - malloc, realloc and free are one allocator. Events, debugger commands by number, sfc_advance, sfc_restore and readers of numbers
 *   take no memory.
 *
 * Instants and TIME values are in microseconds. An instant t is from 0 to 2^62, and not before that of an accepted command.
 * Variables, tasks, programs, steps, transitions and actions are counted from 0 in text order, and keep their numbers.
 *
 * Texts are bytes and a length, without a NUL. Where a text is answered, it is written to `into`, and `needed` is its length.
 * Where `into_len` is less, the answer is SFC_SHORT, nothing is written, and `needed` tells the length all the same. Where
 * there is no text, `needed` is 0.
 */
#ifndef SFC_H
#define SFC_H
#include <stddef.h>
#include <stdint.h>
#ifdef __cplusplus
extern "C" {
#endif

/* What calls answer. 1 to 22 are faults of a chart, 24 to 42 refusals of commands, by docs/FORMATS.md; sfc_explain tells what
 * each means. After any answer but 0 the resource is as it was. */
enum {
    SFC_DONE = 0,
    SFC_CLOSED = -1,   /* the handle holds no resource */
    SFC_NO_VALUE = -2, /* the number is no value of the variable's type */
    SFC_UNKNOWN = -3,  /* there is nothing with this number or name, or no such kind */
    SFC_MEMORY = -4,   /* memory was refused */
    SFC_NO_LINE = -5,  /* it is no line of a script */
    SFC_SHORT = -6,    /* the caller's array is too short */
    SFC_NO_EXPRESSION = -7, /* the text is no condition of the program */
    SFC_NOT_DUE = 29,  /* sfc_scan: no release of the task waits; `next` tells the next one */
    SFC_YIELD = 30,    /* sfc_scan: another task goes first; `first` tells which */
    SFC_STOPPED = 34,  /* sfc_scan: the resource is halted */
    SFC_ENDED = 40     /* an sfc_end was accepted before */
};

/* Kinds. The first three are those of points, which a program's chart has. An action is a declared one, or a variable that is
 * one by itself. */
enum { SFC_STEP = 0, SFC_TRANSITION = 1, SFC_ACTION = 2, SFC_VARIABLE = 3, SFC_TASK = 4, SFC_PROGRAM = 5 };

/* The condition of a breakpoint that waits for none. */
enum { SFC_NO_CONDITION = 65535 };

/* Types of variables, and where they lie. */
enum { SFC_BOOL = 0, SFC_INT = 1, SFC_DINT = 2, SFC_TIME = 3 };
enum { SFC_NOWHERE = 0, SFC_INPUT = 1, SFC_OUTPUT = 2, SFC_MEMORY_AREA = 3 };

/* Why sfc_advance made no more scans: 0 to 3, or what the next scan is refused for, 24 to 42. */
enum {
    SFC_REACHED = 0, /* the next scan comes behind the instant, or none does */
    SFC_HIT = 1,     /* the latest scan hit a breakpoint */
    SFC_FAULT = 2,   /* the latest scan ended that of a program with a fault */
    SFC_GOES_ON = 3  /* 2^64 - 1 were made */
};

/* Modes. */
enum { SFC_RUNNING = 0, SFC_HALTED = 1, SFC_END = 2 };

/* In what the fault of a scan is. */
enum {
    SFC_NO_PLACE = 0,     /* no fault stands */
    SFC_IN_CONDITION = 1, /* in the condition of a transition */
    SFC_IN_CONTROL = 2,   /* in the control block of an action: two associations don't go together */
    SFC_IN_BODY = 3       /* in a statement of the body of a declared action */
};

/* A resource, or none. */
typedef struct {
    void *at;
} sfc_handle_t;
#define SFC_NONE {0}

/* Where the first fault of a chart is. */
typedef struct {
    uint32_t line; /* the line, from 1, where the reader tells one (faults 1 to 7); else 0 */
    int32_t limit; /* with fault 22, what there is too much of: 1 steps, 2 transitions, 3 associations, 4 variables, 5 programs,
                      6 tasks; else 0 */
} sfc_text_fault_t;

/* Why a text is no chart. */
typedef struct {
    size_t line;    /* the line, from 1; 0 where the text is a chart */
    size_t column;  /* the column, from 1, in characters; 0 where the text is a chart */
    size_t length;  /* how many bytes are at fault; 0 at the end of the text, and where it is the text as a whole */
    int32_t number; /* the fault, from 1 to 22; 0 where the text is a chart */
} sfc_chart_fault_t;

/* What a command answered. After a refusal all but `next` and `first` is as where nothing is told. */
typedef struct {
    uint64_t ran;      /* a bit for each program that ran without a fault, the lowest for the first */
    uint64_t faulted;  /* those whose scan ended with a fault */
    uint64_t skipped;  /* those that were passed over because of an earlier fault */
    uint64_t overruns; /* the task's overruns since the opening */
    int64_t next;      /* with SFC_NOT_DUE: the run instant of the next release by the task's INTERVAL, or -1; else -1 */
    int64_t value;     /* of sfc_read: what the variable reads; else 0 */
    int32_t first;     /* with SFC_YIELD: the task that goes first; else -1 */
    int32_t hit;       /* 1 where a breakpoint was hit; else 0 */
} sfc_reply_t;

/* How a resource stands. */
typedef struct {
    int64_t instant;   /* the run instant of the latest accepted command, in microseconds; 0 before the first */
    uint64_t accepted; /* how many commands were accepted */
    int32_t mode;      /* SFC_RUNNING, SFC_HALTED or SFC_END */
} sfc_status_t;

/* What a variable reads. */
typedef struct {
    int64_t value;  /* BOOL as 0 or 1, a TIME in microseconds */
    int32_t forced; /* 1 where the variable is forced; else 0 */
} sfc_variable_state_t;

/* What a variable is. */
typedef struct {
    int32_t var_type; /* SFC_BOOL, SFC_INT, SFC_DINT or SFC_TIME */
    int32_t area;     /* SFC_INPUT where it lies at %I, SFC_OUTPUT at %Q, SFC_MEMORY_AREA at %M; SFC_NOWHERE */
    int32_t program;  /* the program that declares it; -1 for a global one */
} sfc_about_t;

/* The scan that comes next. */
typedef struct {
    int64_t instant; /* when, by the caller's clock */
    int32_t task;    /* of which task */
} sfc_next_scan_t;

/* What was done up to an instant. */
typedef struct {
    uint64_t scans;   /* how many scans were made */
    int64_t instant;  /* when the latest was, by the caller's clock; -1 where none was */
    uint64_t faulted; /* a bit for each program whose scan the latest ended with a fault, the lowest for the first */
    int32_t task;     /* the task of the latest; -1 where none was made */
    int32_t end;      /* why no more were made: SFC_REACHED .. SFC_GOES_ON, or what the next is refused for */
} sfc_advanced_t;

/* How a task stands. */
typedef struct {
    int64_t next;      /* the run instant of its first release by INTERVAL after that of the latest accepted command; -1 where
                          there is none, and while its SINGLE reads TRUE */
    uint64_t overruns; /* its overruns since the opening */
} sfc_task_state_t;

/* How a program stands. */
typedef struct {
    uint64_t scans;    /* how many scans its life has had */
    int32_t fault;     /* what ended a scan since its latest reset: 1 DivZero, 2 Range, 3 TwoTimed, 4 SdWhileSl, 5 SlWhileSd; else 0 */
    int32_t place;     /* in what that is: SFC_IN_CONDITION, SFC_IN_CONTROL or SFC_IN_BODY; else SFC_NO_PLACE */
    int32_t number;    /* which transition or action, as sfc_point has it; SFC_UNKNOWN for one above 65,535; -1 where no fault stands */
    int32_t statement; /* with SFC_IN_BODY which statement, counted from 1, at most 2^31 - 1; else 0. What is in an IF is part of it */
} sfc_program_state_t;

/* How a step, a transition or an action stands after the latest scan of its program. */
typedef struct {
    int64_t elapsed;  /* a step's time, in microseconds; else 0 */
    int32_t active;   /* 1 where a step is active, or an action's Q is TRUE; else 0 */
    int32_t happened; /* 1 where the scan activated the step, cleared the transition or executed the action; else 0 */
} sfc_point_state_t;

/* ---- Life. */

/* Opens a resource that runs this chart, in the place of one that the handle holds: each variable has its initial value, and
 * no command was accepted. It answers 0, or the number of the chart's first fault, or SFC_MEMORY; then the handle holds what
 * it held. */
int32_t sfc_open(const uint8_t *text, size_t text_len, sfc_handle_t *plc);
/* The same, with conditions for breakpoints: those that stand behind WHEN in this script (docs/FORMATS.md), numbered from 0 in
 * the order of its lines. Nothing else of the script counts. SFC_NO_LINE where one of its lines is no command. sfc_break_when
 * adds others later. */
int32_t sfc_open_with(const uint8_t *text, size_t text_len, const uint8_t *script, size_t script_len, sfc_handle_t *plc);
/* The first fault of a text: its number, and where it is in `into`; 0 where the text is a chart; or SFC_MEMORY. */
int32_t sfc_check(const uint8_t *text, size_t text_len, sfc_text_fault_t *into);
/* Why a text is no chart: its first fault as fields, and as the text of `sfcmon why`, in which the file is called `chart`. 0 where
 * all is told, also of a chart, whose number is 0 and which has no text; SFC_SHORT, where the fields are told all the same; or
 * SFC_MEMORY, where nothing is. */
int32_t sfc_why(const uint8_t *text, size_t text_len, sfc_chart_fault_t *fault, uint8_t *into, size_t into_len, size_t *needed);
/* Frees the resource, if the handle holds one, with all that was saved of it. It may be called twice. */
void sfc_close(sfc_handle_t *plc);

/* ---- Names. Letters are the same in any case. A number that is found is 0 or more; SFC_UNKNOWN where there is none. */

/* A variable: NAME of a global one, PROGRAM.NAME of one that the program declares for itself, or a location, as %IX0.0.
 * SFC_MEMORY may be answered for a location. */
int32_t sfc_variable(sfc_handle_t *plc, const uint8_t *name, size_t name_len);
int32_t sfc_task(sfc_handle_t *plc, const uint8_t *name, size_t name_len);
int32_t sfc_program(sfc_handle_t *plc, const uint8_t *name, size_t name_len);
/* A point of the program's chart: SFC_STEP, SFC_TRANSITION or SFC_ACTION, of the last the first that has the name. */
int32_t sfc_point(sfc_handle_t *plc, uint8_t program, uint8_t kind, const uint8_t *name, size_t name_len);
/* How many there are of a kind; of points those of the program's chart. Variables, tasks and programs want no program. */
int32_t sfc_count(sfc_handle_t *plc, uint8_t kind, uint8_t program);
/* The name of number n of a kind, as it was declared: of a variable as sfc_variable takes it; empty of a transition without a
 * name. SFC_UNKNOWN where there is no such number, SFC_SHORT, SFC_MEMORY. */
int32_t sfc_name(sfc_handle_t *plc, uint8_t kind, uint8_t program, uint16_t number, uint8_t *into, size_t into_len, size_t *needed);

/* What a variable is. SFC_UNKNOWN where there is none. */
int32_t sfc_about(sfc_handle_t *plc, uint16_t var, sfc_about_t *into);
/* Where a variable lies, as %IX0.0; nothing where it lies nowhere. SFC_UNKNOWN where there is none, SFC_SHORT, SFC_MEMORY. */
int32_t sfc_location(sfc_handle_t *plc, uint16_t var, uint8_t *into, size_t into_len, size_t *needed);

/* ---- Commands. Each is accepted, and has happened at t, or is refused, and nothing has changed. */

/* Scans the programs of a task that is due (2.7.2). */
int32_t sfc_scan(sfc_handle_t *plc, uint8_t task, int64_t t, sfc_reply_t *into);
/* In a halted resource: scans the programs of a task, due or not, `delta` microseconds of the resource's time later. */
int32_t sfc_single(sfc_handle_t *plc, uint8_t task, int64_t delta, int64_t t, sfc_reply_t *into);
/* Writes a variable that is located at %I: BOOL as 0 or 1, a TIME in microseconds. */
int32_t sfc_input(sfc_handle_t *plc, uint16_t var, int64_t value, int64_t t);
/* The variable reads this value until sfc_release, whatever is written to it. */
int32_t sfc_force(sfc_handle_t *plc, uint16_t var, int64_t value, int64_t t);
int32_t sfc_release(sfc_handle_t *plc, uint16_t var, int64_t t);
/* The program begins a new life, and its own variables get their initial values. */
int32_t sfc_reset(sfc_handle_t *plc, uint8_t program, int64_t t);
/* What the variable reads, in `value`, as a command with an instant. */
int32_t sfc_read(sfc_handle_t *plc, uint16_t var, int64_t t, sfc_reply_t *into);
/* Sets a breakpoint at a point: a scan that hits it halts the resource. It waits for the condition of this number, of those of
 * sfc_open_with, or for none with SFC_NO_CONDITION. */
int32_t sfc_break(sfc_handle_t *plc, uint8_t program, uint8_t kind, uint16_t number, uint16_t condition, int64_t t);
/* The same with the condition that a text is: a BOOL expression, in which names are those of the conditions of the program's
 * transitions. It gets the next number behind all others. SFC_NO_EXPRESSION where the text is no such condition, SFC_MEMORY. */
int32_t sfc_break_when(sfc_handle_t *plc, uint8_t program, uint8_t kind, uint16_t number, const uint8_t *text, size_t text_len, int64_t t);
int32_t sfc_unbreak(sfc_handle_t *plc, uint8_t program, uint8_t kind, uint16_t number, int64_t t);
/* Halts the resource: its time stands still, and only sfc_single scans. */
int32_t sfc_stop(sfc_handle_t *plc, int64_t t);
/* Lets a halted resource run on. */
int32_t sfc_go(sfc_handle_t *plc, int64_t t);
/* No later command is accepted. */
int32_t sfc_end(sfc_handle_t *plc, int64_t t);

/* ---- All tasks. They go on from the latest accepted command. */

/* Which task is scanned next, and when: where it is a task's turn at the instant of the latest command, that task then; else the
 * one whose turn it is at the earliest next release of all tasks by their INTERVAL. SFC_UNKNOWN where none comes, as while the
 * resource is halted; SFC_MEMORY. The resource stays as it is. */
int32_t sfc_next(sfc_handle_t *plc, sfc_next_scan_t *into);
/* Scans all tasks at each of their releases up to an instant, each scan as sfc_next tells it. It ends before the first scan behind
 * the instant, and behind a scan that hits a breakpoint or ends that of a program with a fault. It answers 0, or where nothing was
 * scanned what the next scan is refused for, as SFC_STOPPED; `end` tells that too. */
int32_t sfc_advance(sfc_handle_t *plc, int64_t until, sfc_advanced_t *into);

/* ---- Going back. What a resource leaves for later commands is saved under a number of the caller's, from 0 without a gap. */

/* Saves it, in the place of what was saved under the number, or as the next behind all others. SFC_UNKNOWN where the number is above
 * that of the next, SFC_MEMORY. Only a new number takes memory that stays. */
int32_t sfc_save(sfc_handle_t *plc, uint16_t number);
/* Goes back to what was saved under a number: values, forces, steps, breakpoints, the mode and the instants are those of then, and
 * the count of accepted commands. SFC_UNKNOWN where nothing was. */
int32_t sfc_restore(sfc_handle_t *plc, uint16_t number);

/* ---- Text. */

/* Obeys a line of a script (docs/FORMATS.md), at the instant that it has, and gives the lines that `sfcmon replay` prints for
 * it, with their ends. 0 or a refusal's number: the command was answered so, and the lines are there. Else it hasn't happened:
 * SFC_SHORT, SFC_MEMORY, SFC_NO_LINE where it is no command or more than one, SFC_UNKNOWN where the condition behind WHEN is
 * none of the opening's. A line without a command answers 0 and gives nothing. */
int32_t sfc_command(sfc_handle_t *plc, const uint8_t *line, size_t line_len, uint8_t *into, size_t into_len, size_t *needed);
/* A line for each variable, as `sfcmon replay` prints them at its end. SFC_SHORT, SFC_MEMORY. */
int32_t sfc_image_text(sfc_handle_t *plc, uint8_t *into, size_t into_len, size_t *needed);
/* What a fault or a refusal of this number means, with its usual cause and an example: the page of `sfcmon explain`.
 * SFC_UNKNOWN where there is none, SFC_SHORT, SFC_MEMORY. */
int32_t sfc_explain(uint8_t number, uint8_t *into, size_t into_len, size_t *needed);
/* The version of the library, as 1.2.3. SFC_SHORT. */
int32_t sfc_version(uint8_t *into, size_t into_len, size_t *needed);

/* ---- Readers. They want no instant and change nothing. Where the answer isn't 0 nothing is written. */

/* What the variable reads: BOOL as 0 or 1, a TIME in microseconds. */
int32_t sfc_value(sfc_handle_t *plc, uint16_t var, int64_t *into);
/* 1 where the variable is forced, 0 where it isn't, or a code below 0. */
int32_t sfc_forced(sfc_handle_t *plc, uint16_t var);
/* All variables at once, by their numbers. SFC_SHORT where there are more than into_len. What lies behind them stays. */
int32_t sfc_image(sfc_handle_t *plc, sfc_variable_state_t *into, size_t into_len);
int32_t sfc_status(sfc_handle_t *plc, sfc_status_t *into);
int32_t sfc_task_state(sfc_handle_t *plc, uint8_t task, sfc_task_state_t *into);
int32_t sfc_program_state(sfc_handle_t *plc, uint8_t program, sfc_program_state_t *into);
int32_t sfc_point_state(sfc_handle_t *plc, uint8_t program, uint8_t kind, uint16_t number, sfc_point_state_t *into);

#if defined(__STDC_VERSION__) && __STDC_VERSION__ >= 201112L
_Static_assert(sizeof(sfc_handle_t) == 8, "sfc_handle_t");
_Static_assert(sizeof(sfc_text_fault_t) == 8 && offsetof(sfc_text_fault_t, limit) == 4, "sfc_text_fault_t");
_Static_assert(sizeof(sfc_chart_fault_t) == 32 && offsetof(sfc_chart_fault_t, number) == 24, "sfc_chart_fault_t");
_Static_assert(sizeof(sfc_about_t) == 12 && offsetof(sfc_about_t, program) == 8, "sfc_about_t");
_Static_assert(sizeof(sfc_next_scan_t) == 16 && offsetof(sfc_next_scan_t, task) == 8, "sfc_next_scan_t");
_Static_assert(sizeof(sfc_advanced_t) == 32 && offsetof(sfc_advanced_t, faulted) == 16 && offsetof(sfc_advanced_t, task) == 24
               && offsetof(sfc_advanced_t, end) == 28, "sfc_advanced_t");
_Static_assert(sizeof(sfc_reply_t) == 56 && offsetof(sfc_reply_t, next) == 32 && offsetof(sfc_reply_t, value) == 40
               && offsetof(sfc_reply_t, first) == 48 && offsetof(sfc_reply_t, hit) == 52, "sfc_reply_t");
_Static_assert(sizeof(sfc_status_t) == 24 && offsetof(sfc_status_t, mode) == 16, "sfc_status_t");
_Static_assert(sizeof(sfc_variable_state_t) == 16 && offsetof(sfc_variable_state_t, forced) == 8, "sfc_variable_state_t");
_Static_assert(sizeof(sfc_task_state_t) == 16 && offsetof(sfc_task_state_t, overruns) == 8, "sfc_task_state_t");
_Static_assert(sizeof(sfc_program_state_t) == 24 && offsetof(sfc_program_state_t, fault) == 8 && offsetof(sfc_program_state_t, place) == 12
               && offsetof(sfc_program_state_t, number) == 16 && offsetof(sfc_program_state_t, statement) == 20, "sfc_program_state_t");
_Static_assert(sizeof(sfc_point_state_t) == 16 && offsetof(sfc_point_state_t, active) == 8, "sfc_point_state_t");
#endif

#ifdef __cplusplus
}
#endif
#endif
