/* Tries the wrappers of sfc.hpp: c_library.cpp PUMP BELT. The exit status is 1 where something isn't so. */
#include "sfc.hpp"
#include <cstdio>
#include <cstdlib>
#include <utility>

#define WANT(what) do { if (!(what)) { std::fprintf(stderr, "line %d: %s\n", __LINE__, #what); std::exit(1); } } while (0)

using namespace std::chrono_literals;

template <typename Call> static std::int32_t refusal(Call call) {
    try {
        call();
    } catch (const sfc::Refused &it) {
        return it.code;
    }
    return 0;
}

static void pump(const char *path) {
    sfc::Plc first = sfc::Plc::of(path), plc = std::move(first);
    const auto start = plc.variable("Start"), lamp = plc.variable("%QX0.0");
    WANT(plc.about(start).type == sfc::Type::Bool && plc.about(start).area == sfc::Area::Input && plc.about(start).location == "%IX0.0");
    WANT(plc.about(lamp).name == "Pump" && plc.about(lamp).area == sfc::Area::Output && !plc.about(lamp).program);
    WANT(plc.variables().size() == 5 && plc.image().size() == 5);
    WANT(refusal([&] { plc.variable("Strat"); }) == SFC_UNKNOWN && refusal([&] { plc.input(lamp, 1, 0us); }) == 26);
    WANT(refusal([&] { plc.input(start, 2, 0us); }) == SFC_NO_VALUE && refusal([&] { plc.restore(0); }) == SFC_UNKNOWN);
    plc.save(0);
    plc.input(start, 1, 150ms);
    const auto did = plc.advance(1s);
    WANT(did.scans == 6 && did.end == SFC_REACHED && plc.value("Pump") == 1 && plc.state(plc.step("Pump1", "Pumping")).active == 1);
    plc.break_when(plc.step("Pump1", "RunningOn"), "Stop", 1s);
    WANT(refusal([&] { plc.break_when(plc.step("Pump1", "Idle"), "Nothing", 1s); }) == SFC_NO_EXPRESSION);
    plc.input(plc.variable("Stop"), 1, 1s);
    WANT(plc.advance(5s).end == SFC_HIT && plc.status().mode == SFC_HALTED && !plc.next());
    plc.restore(0);
    WANT(plc.status().accepted == 0 && plc.value("Pump") == 0 && plc.command("T#0s READ Pump") == "T#0s READ Pump FALSE\n");
    WANT(plc.next()->instant == 0 && plc.next()->task == plc.task("Main") && plc.image_text().find("image Pump FALSE") != std::string::npos);
}

static void belt(const char *path) {
    const auto plc = sfc::Plc::of(path);
    WANT(plc.count(SFC_TASK) == 2 && plc.name(SFC_TASK, 1) == "Slow" && plc.next()->task == 0);
    WANT(plc.task_state(1).overruns == 0 && plc.program_state(0).scans == 0);
}

/* The first scan divides by zero, in the second statement of the declared action, behind a variable that is one. */
static void fault() {
    sfc::Plc plc("PROGRAM P VAR N : INT; END_VAR INITIAL_STEP S: Lamp(N); Fill(N); END_STEP ACTION Fill: N := 0; N := 1 / N; END_ACTION "
                 "END_PROGRAM CONFIGURATION C RESOURCE R ON X VAR_GLOBAL Lamp : BOOL; END_VAR TASK T(INTERVAL := T#10ms, PRIORITY := 1); "
                 "PROGRAM I WITH T : P; END_RESOURCE END_CONFIGURATION");
    WANT(plc.program_state(0).place == SFC_NO_PLACE && plc.program_state(0).number == -1 && plc.advance(0us).end == SFC_FAULT);
    const auto is = plc.program_state(0);
    WANT(is.fault == 1 && is.place == SFC_IN_BODY && is.number == plc.action("I", "Fill").number && is.number == 1 && is.statement == 2);
    plc.reset(0, 0us);
    WANT(plc.program_state(0).place == SFC_NO_PLACE && plc.program_state(0).statement == 0);
}

int main(int argc, char **argv) {
    if (argc != 3) return 2;
    pump(argv[1]);
    belt(argv[2]);
    fault();
    WANT(sfc::version().find('.') != std::string::npos && sfc::explain(29).rfind("29 NotDue\n", 0) == 0);
    try {
        sfc::Plc("PROGRAM P\n  STEP\nEND_PROGRAM");
        WANT(false);
    } catch (const sfc::ChartRefused &it) {
        WANT(it.code == 4 && it.fault.line == 3 && it.fault.column == 1 && it.report.rfind("chart:3:1: 4 Syntax", 0) == 0);
    }
    return 0;
}
