/* sfc_tools.h: what the program sfcmon tells of a chart and of scripts on it, as calls from texts to a text.
 *
 * The head of sfc.h says what the caller must uphold. A chart, a script, and a file of tests are those of docs/FORMATS.md. What is
 * told is written to `into`, and `needed` is its length; where `into_len` is less, the answer is SFC_SHORT, nothing is written, and
 * `needed` tells the length all the same. Each call stands for itself: nothing is kept from one to the next.
 *
 * The answers are those of sfc.h: 0; the number of the chart's first fault; SFC_MEMORY; SFC_NO_LINE where a line of the script or of the
 * tests says nothing; SFC_SHORT; and SFC_LARGE.
 */
#ifndef SFC_TOOLS_H
#define SFC_TOOLS_H
#include <stddef.h>
#include <stdint.h>
#ifdef __cplusplus
extern "C" {
#endif

/* The drawing or the waveform would be too large. */
enum { SFC_LARGE = -7 };

/* ---- Faults, as `sfcmon why` tells them; `no fault` where there is none. The texts are named chart, script and tests. */

/* All faults of a chart. */
int32_t sfc_why_chart(const uint8_t *chart, size_t chart_len, uint8_t *into, size_t into_len, size_t *needed);
/* The first fault of a script on a chart, or warnings. */
int32_t sfc_why_script(const uint8_t *chart, size_t chart_len, const uint8_t *script, size_t script_len, uint8_t *into, size_t into_len,
                       size_t *needed);
/* The first fault of tests of a chart, or the names that the chart hasn't. */
int32_t sfc_why_tests(const uint8_t *chart, size_t chart_len, const uint8_t *tests, size_t tests_len, uint8_t *into, size_t into_len,
                      size_t *needed);

/* ---- Charts. */

/* All that a chart says, in one layout: `sfcmon list`. */
int32_t sfc_list(const uint8_t *chart, size_t chart_len, uint8_t *into, size_t into_len, size_t *needed);
/* The program types as SVG: `sfcmon draw`. */
int32_t sfc_draw(const uint8_t *chart, size_t chart_len, uint8_t *into, size_t into_len, size_t *needed);
/* The program instances as SVG, as they stand when the script was played: `sfcmon draw --after`. */
int32_t sfc_draw_after(const uint8_t *chart, size_t chart_len, const uint8_t *script, size_t script_len, uint8_t *into, size_t into_len,
                       size_t *needed);

/* ---- Runs. */

/* What the commands of a script answer, and the variables at its end: `sfcmon replay`. */
int32_t sfc_play(const uint8_t *chart, size_t chart_len, const uint8_t *script, size_t script_len, uint8_t *into, size_t into_len,
                 size_t *needed);
/* All signals as a Value Change Dump: `sfcmon wave`. */
int32_t sfc_wave(const uint8_t *chart, size_t chart_len, const uint8_t *script, size_t script_len, uint8_t *into, size_t into_len,
                 size_t *needed);
/* What a script reaches: `sfcmon cover`. */
int32_t sfc_cover(const uint8_t *chart, size_t chart_len, const uint8_t *script, size_t script_len, uint8_t *into, size_t into_len,
                  size_t *needed);
/* The program instances as SVG, with what a script never reaches of them: `sfcmon draw --cover`. */
int32_t sfc_draw_cover(const uint8_t *chart, size_t chart_len, const uint8_t *script, size_t script_len, uint8_t *into, size_t into_len,
                       size_t *needed);
/* What becomes of each case of tests that include no others: `sfcmon test`. */
int32_t sfc_test(const uint8_t *chart, size_t chart_len, const uint8_t *tests, size_t tests_len, uint8_t *into, size_t into_len,
                 size_t *needed);
/* What the prompt of `sfcmon debug` answers to the lines of questions, when those of the script were said: WHY, SHOW, IMAGE, POINTS,
 * TRACE and its other words. No scans are made that a line such as UNTIL leaves under way, and SAVE writes nothing. */
int32_t sfc_ask(const uint8_t *chart, size_t chart_len, const uint8_t *script, size_t script_len, const uint8_t *questions,
                size_t questions_len, uint8_t *into, size_t into_len, size_t *needed);

#ifdef __cplusplus
}
#endif
#endif
