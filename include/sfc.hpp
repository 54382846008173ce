/* sfc.hpp: the C library (sfc.h) for C++17, header only: a resource that frees itself, texts as strings, instants and durations as
 * std::chrono::microseconds, and refusals as exceptions. Names are looked up once, and then calls go by number.
 *
 * What the head of sfc.h asks of the caller holds here too: one call at a time for each Plc. A Plc moves, and is not copied. */
#ifndef SFC_HPP
#define SFC_HPP
#include "sfc.h"
#include <chrono>
#include <cstdint>
#include <fstream>
#include <iterator>
#include <memory>
#include <optional>
#include <stdexcept>
#include <string>
#include <string_view>
#include <vector>

namespace sfc {

using Micros = std::chrono::microseconds;

enum class Type { Bool = SFC_BOOL, Int = SFC_INT, Dint = SFC_DINT, Time = SFC_TIME };
enum class Area { Nowhere = SFC_NOWHERE, Input = SFC_INPUT, Output = SFC_OUTPUT, Memory = SFC_MEMORY_AREA };

/* A call was refused, and changed nothing: its code by sfc.h. */
class Refused : public std::runtime_error {
public:
    Refused(std::int32_t code, const std::string &what) : std::runtime_error(what + ": " + std::to_string(code)), code(code) {}
    const std::int32_t code;
};

/* The text is no chart: the report of `sfcmon why`, and where it is. */
class ChartRefused : public Refused {
public:
    ChartRefused(const sfc_chart_fault_t &fault, std::string report)
        : Refused(fault.number, "the chart is refused"), fault(fault), report(std::move(report)) {}
    const sfc_chart_fault_t fault;
    const std::string report;
};

namespace detail {

inline const std::uint8_t *bytes(std::string_view text) {
    static const std::uint8_t none = 0;
    return text.empty() ? &none : reinterpret_cast<const std::uint8_t *>(text.data());
}

inline void want(std::int32_t code, const char *what) {
    if (code != SFC_DONE) throw Refused(code, what);
}

inline std::int32_t found(std::int32_t number, std::string_view name) {
    if (number < 0) throw Refused(number, "no " + std::string(name));
    return number;
}

/* What a call answers that gives a text, and the text. */
template <typename Call> std::int32_t text(std::string &into, Call call) {
    into.resize(256);
    for (;;) {
        std::size_t needed = 0;
        const std::int32_t code = call(reinterpret_cast<std::uint8_t *>(&into[0]), into.size(), &needed);
        const bool is_short = code == SFC_SHORT && needed > into.size();
        into.resize(needed);
        if (!is_short) return code;
    }
}

template <typename Call> std::string text_of(const char *what, Call call) {
    std::string into;
    want(text(into, call), what);
    return into;
}

struct Close {
    void operator()(sfc_handle_t *plc) const {
        sfc_close(plc);
        delete plc;
    }
};

} // namespace detail

/* The version of the library. */
inline std::string version() {
    return detail::text_of("version", [](auto *into, auto room, auto *needed) { return sfc_version(into, room, needed); });
}

/* What a fault of a chart or a refusal of a command means. */
inline std::string explain(std::uint8_t number) {
    return detail::text_of("explain", [&](auto *into, auto room, auto *needed) { return sfc_explain(number, into, room, needed); });
}

/* A variable: its number, and what it is. */
struct Variable {
    std::uint16_t number;
    std::string name;
    Type type;
    Area area;
    std::string location;
    std::optional<std::uint8_t> program;
};

/* A point of a program's chart: SFC_STEP, SFC_TRANSITION or SFC_ACTION, and its number. */
struct Point {
    std::uint8_t program, kind;
    std::uint16_t number;
};

/* A resource that runs a chart. */
class Plc {
public:
    /* Opens the text of a chart, with the conditions behind WHEN in a script. ChartRefused where it is none. */
    explicit Plc(std::string_view chart, std::string_view script = {}) : plc_(new sfc_handle_t SFC_NONE) {
        const std::int32_t code = sfc_open_with(detail::bytes(chart), chart.size(), detail::bytes(script), script.size(), plc_.get());
        if (code > 0) refuse(chart);
        detail::want(code, "open");
    }

    /* Opens the chart of a file. */
    static Plc of(const std::string &path, std::string_view script = {}) {
        std::ifstream file(path, std::ios::binary);
        if (!file) throw std::runtime_error(path + " can't be read");
        const std::string chart((std::istreambuf_iterator<char>(file)), std::istreambuf_iterator<char>());
        return Plc(chart, script);
    }

    /* The handle, for calls of sfc.h. */
    sfc_handle_t *handle() const { return plc_.get(); }

    /* ---- names */

    std::uint16_t variable(std::string_view name) const {
        return static_cast<std::uint16_t>(detail::found(sfc_variable(handle(), detail::bytes(name), name.size()), name));
    }
    std::uint8_t task(std::string_view name) const {
        return static_cast<std::uint8_t>(detail::found(sfc_task(handle(), detail::bytes(name), name.size()), name));
    }
    std::uint8_t program(std::string_view name) const {
        return static_cast<std::uint8_t>(detail::found(sfc_program(handle(), detail::bytes(name), name.size()), name));
    }
    Point step(std::string_view program_name, std::string_view name) const { return point(program_name, SFC_STEP, name); }
    Point transition(std::string_view program_name, std::string_view name) const { return point(program_name, SFC_TRANSITION, name); }
    Point action(std::string_view program_name, std::string_view name) const { return point(program_name, SFC_ACTION, name); }

    std::string name(std::uint8_t kind, std::uint16_t number, std::uint8_t program_number = 0) const {
        return detail::text_of("name", [&](auto *into, auto room, auto *needed) {
            return sfc_name(handle(), kind, program_number, number, into, room, needed);
        });
    }
    std::uint16_t count(std::uint8_t kind, std::uint8_t program_number = 0) const {
        return static_cast<std::uint16_t>(detail::found(sfc_count(handle(), kind, program_number), "kind"));
    }
    Variable about(std::uint16_t number) const {
        sfc_about_t is = {};
        detail::want(sfc_about(handle(), number, &is), "about");
        const auto location = detail::text_of("location", [&](auto *into, auto room, auto *needed) {
            return sfc_location(handle(), number, into, room, needed);
        });
        const auto declares = is.program < 0 ? std::nullopt : std::optional<std::uint8_t>(static_cast<std::uint8_t>(is.program));
        return {number, name(SFC_VARIABLE, number), static_cast<Type>(is.var_type), static_cast<Area>(is.area), location, declares};
    }
    std::vector<Variable> variables() const {
        std::vector<Variable> all;
        for (std::uint16_t k = 0; k < count(SFC_VARIABLE); k++) all.push_back(about(k));
        return all;
    }

    /* ---- commands, each at an instant of the caller's clock */

    sfc_reply_t scan(std::uint8_t task_number, Micros t) {
        sfc_reply_t reply = {};
        detail::want(sfc_scan(handle(), task_number, t.count(), &reply), "scan");
        return reply;
    }
    sfc_reply_t single(std::uint8_t task_number, Micros delta, Micros t) {
        sfc_reply_t reply = {};
        detail::want(sfc_single(handle(), task_number, delta.count(), t.count(), &reply), "single");
        return reply;
    }
    void input(std::uint16_t var, std::int64_t value, Micros t) { detail::want(sfc_input(handle(), var, value, t.count()), "input"); }
    void force(std::uint16_t var, std::int64_t value, Micros t) { detail::want(sfc_force(handle(), var, value, t.count()), "force"); }
    void release(std::uint16_t var, Micros t) { detail::want(sfc_release(handle(), var, t.count()), "release"); }
    void reset(std::uint8_t program_number, Micros t) { detail::want(sfc_reset(handle(), program_number, t.count()), "reset"); }
    void set_break(Point at, Micros t) {
        detail::want(sfc_break(handle(), at.program, at.kind, at.number, SFC_NO_CONDITION, t.count()), "break");
    }
    void break_when(Point at, std::string_view condition, Micros t) {
        detail::want(sfc_break_when(handle(), at.program, at.kind, at.number, detail::bytes(condition), condition.size(), t.count()), "break");
    }
    void unbreak(Point at, Micros t) { detail::want(sfc_unbreak(handle(), at.program, at.kind, at.number, t.count()), "unbreak"); }
    void stop(Micros t) { detail::want(sfc_stop(handle(), t.count()), "stop"); }
    void go(Micros t) { detail::want(sfc_go(handle(), t.count()), "go"); }
    void end(Micros t) { detail::want(sfc_end(handle(), t.count()), "end"); }

    /* The lines that `sfcmon replay` prints for a line of a script, also for a refusal. */
    std::string command(std::string_view line) {
        std::string told;
        const std::int32_t code = detail::text(told, [&](auto *into, auto room, auto *needed) {
            return sfc_command(handle(), detail::bytes(line), line.size(), into, room, needed);
        });
        if (code < 0) throw Refused(code, std::string(line));
        return told;
    }

    /* ---- all tasks */

    std::optional<sfc_next_scan_t> next() const {
        sfc_next_scan_t coming = {};
        const std::int32_t code = sfc_next(handle(), &coming);
        if (code == SFC_UNKNOWN) return std::nullopt;
        detail::want(code, "next");
        return coming;
    }
    sfc_advanced_t advance(Micros until) {
        sfc_advanced_t did = {};
        detail::want(sfc_advance(handle(), until.count(), &did), "advance");
        return did;
    }

    /* ---- going back */

    void save(std::uint16_t number) { detail::want(sfc_save(handle(), number), "save"); }
    void restore(std::uint16_t number) { detail::want(sfc_restore(handle(), number), "restore"); }

    /* ---- readers */

    std::int64_t value(std::uint16_t var) const {
        std::int64_t is = 0;
        detail::want(sfc_value(handle(), var, &is), "value");
        return is;
    }
    std::int64_t value(std::string_view variable_name) const { return value(variable(variable_name)); }
    bool forced(std::uint16_t var) const { return detail::found(sfc_forced(handle(), var), "variable") == 1; }
    std::vector<sfc_variable_state_t> image() const {
        std::vector<sfc_variable_state_t> all(count(SFC_VARIABLE) + std::size_t{1});
        detail::want(sfc_image(handle(), all.data(), all.size()), "image");
        all.pop_back();
        return all;
    }
    std::string image_text() const {
        return detail::text_of("image", [&](auto *into, auto room, auto *needed) { return sfc_image_text(handle(), into, room, needed); });
    }
    sfc_status_t status() const {
        sfc_status_t is = {};
        detail::want(sfc_status(handle(), &is), "status");
        return is;
    }
    sfc_task_state_t task_state(std::uint8_t task_number) const {
        sfc_task_state_t is = {};
        detail::want(sfc_task_state(handle(), task_number, &is), "task");
        return is;
    }
    sfc_program_state_t program_state(std::uint8_t program_number) const {
        sfc_program_state_t is = {};
        detail::want(sfc_program_state(handle(), program_number, &is), "program");
        return is;
    }
    sfc_point_state_t state(Point at) const {
        sfc_point_state_t is = {};
        detail::want(sfc_point_state(handle(), at.program, at.kind, at.number, &is), "point");
        return is;
    }

private:
    Point point(std::string_view program_name, std::uint8_t kind, std::string_view name) const {
        const std::uint8_t p = program(program_name);
        const std::int32_t number = sfc_point(handle(), p, kind, detail::bytes(name), name.size());
        return {p, kind, static_cast<std::uint16_t>(detail::found(number, name))};
    }

    [[noreturn]] static void refuse(std::string_view chart) {
        sfc_chart_fault_t fault = {};
        const auto report = detail::text_of("why", [&](auto *into, auto room, auto *needed) {
            return sfc_why(detail::bytes(chart), chart.size(), &fault, into, room, needed);
        });
        throw ChartRefused(fault, report);
    }

    /* On the heap, since a handle is never copied. */
    std::unique_ptr<sfc_handle_t, detail::Close> plc_;
};

} // namespace sfc
#endif
