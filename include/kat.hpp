// SPDX-License-Identifier: MIT OR Apache-2.0
// The calls of kat for C++17, over those of kat.h: each takes texts as std::string_view and gives a status with its output;
// library_version gives the version of the library.
//
//     kat::Result result = kat::decide(problem);
//     if (result.status == kat::Status::equal) use(kat::check(problem, result.output));
//
// A call throws std::bad_alloc where memory ran out and nothing else. It makes room for the output: `first_room` bytes, and
// where the output is longer a second call with enough, which does the work again. What kat.h says of threads, time and the
// stack is true here too; a text may be a string_view without memory, which kat.h would not take.
#ifndef KAT_HPP
#define KAT_HPP

#include <cstddef>
#include <cstdint>
#include <new>
#include <string>
#include <string_view>
#include <utility>

#include "kat.h"

namespace kat {

// The version of the release that this header belongs to.
inline constexpr std::string_view version = KAT_VERSION;

// The room for the output of the first call, in bytes.
inline constexpr std::size_t first_room = 65536;

// What a call answers; kat.h says what each means.
enum class Status : std::uint8_t {
    equal = KAT_EQUAL,
    different = KAT_DIFFERENT,
    refused = KAT_REFUSED,
    rejected = KAT_REJECTED,
    no_such = KAT_NO_SUCH
};

// The status of a call, and all that the command of its name prints.
struct Result {
    Status status;
    std::string output;
};

namespace detail {

// A text for kat.h, which takes no null pointer.
inline const std::uint8_t *bytes(std::string_view text) {
    return reinterpret_cast<const std::uint8_t *>(text.data() ? text.data() : "");
}

// Calls with the output's memory, its room and the place of its length, until there is enough room.
template <typename Call>
Result with_room(Call call) {
    std::string output(first_room, '\0');
    for (;;) {
        std::size_t needed = 0;
        const std::uint8_t status = call(reinterpret_cast<std::uint8_t *>(output.data()), output.size(), &needed);
        if (status == KAT_NO_MEMORY) throw std::bad_alloc();
        output.resize(needed);
        if (status != KAT_NO_ROOM) return {static_cast<Status>(status), std::move(output)};
    }
}

using OfOne = std::uint8_t(const std::uint8_t *, std::size_t, std::uint8_t *, std::size_t, std::size_t *);
using OfTwo = std::uint8_t(const std::uint8_t *, std::size_t, const std::uint8_t *, std::size_t, std::uint8_t *, std::size_t,
                           std::size_t *);

inline Result of_one(OfOne *function, std::string_view text) {
    return with_room([&](std::uint8_t *out, std::size_t room, std::size_t *needed) {
        return function(bytes(text), text.size(), out, room, needed);
    });
}

inline Result of_two(OfTwo *function, std::string_view text, std::string_view given) {
    return with_room([&](std::uint8_t *out, std::size_t room, std::size_t *needed) {
        return function(bytes(text), text.size(), bytes(given), given.size(), out, room, needed);
    });
}

}  // namespace detail

// The version of the library that is linked, as `version` is that of this header.
inline std::string library_version() {
    const std::uint32_t number = kat_version();
    return std::to_string(number / 1000000) + '.' + std::to_string(number / 1000 % 1000) + '.' + std::to_string(number % 1000);
}

// Decides the goal of a problem file. The output is evidence.
inline Result decide(std::string_view text) { return detail::of_one(kat_decide, text); }

// The same with a line of JSON as its output.
inline Result decide_json(std::string_view text) { return detail::of_one(kat_decide_json, text); }

// Decides each of up to 64 goals of a problem file.
inline Result batch(std::string_view text) { return detail::of_one(kat_batch, text); }

// Checks evidence for the goal of a problem file, whoever wrote it.
inline Result check(std::string_view text, std::string_view evidence) { return detail::of_two(kat_check, text, evidence); }

// Prints the string of evidence, state by state.
inline Result replay(std::string_view text, std::string_view evidence) { return detail::of_two(kat_replay, text, evidence); }

// Explains evidence in the words of the problem file.
inline Result explain(std::string_view text, std::string_view evidence) { return detail::of_two(kat_explain, text, evidence); }

// Looks for a store from which the goal is false, with runs of at most `turns` loop bodies. `try` is a word of C++.
inline Result try_(std::string_view text, std::uint64_t turns) {
    return detail::with_room([&](std::uint8_t *out, std::size_t room, std::size_t *needed) {
        return kat_try(detail::bytes(text), text.size(), turns, out, room, needed);
    });
}

// The same, but the stores that follow the string of evidence are tried first.
inline Result try_with(std::string_view text, std::uint64_t turns, std::string_view evidence) {
    return detail::with_room([&](std::uint8_t *out, std::size_t room, std::size_t *needed) {
        return kat_try_with(detail::bytes(text), text.size(), turns, detail::bytes(evidence), evidence.size(), out, room, needed);
    });
}

// Checks a proof that turns one side of the goal into the other by axioms.
inline Result chain(std::string_view text, std::string_view proof) { return detail::of_two(kat_chain, text, proof); }

// Proves a triple of a program.
inline Result outline(std::string_view text) { return detail::of_one(kat_outline, text); }

// Checks notes in the program of a triple, whoever wrote them.
inline Result outline_check(std::string_view text, std::string_view notes) {
    return detail::of_two(kat_outline_check, text, notes);
}

// Prints the problem of tests and actions that is decided for a problem file.
inline Result show(std::string_view text) { return detail::of_one(kat_show, text); }

// Translates a text of guarded programs into a problem file.
inline Result gkat(std::string_view text) { return detail::of_one(kat_gkat, text); }

// Prints the question whether two flow graphs always return the same as a problem file.
inline Result flow(std::string_view text) { return detail::of_one(kat_flow, text); }

// Runs a program of a problem file from a store, as "a=12,b=18", for at most `turns` loop bodies.
inline Result run(std::string_view text, std::string_view prog, std::string_view store, std::uint64_t turns) {
    return detail::with_room([&](std::uint8_t *out, std::size_t room, std::size_t *needed) {
        return kat_run(detail::bytes(text), text.size(), detail::bytes(prog), prog.size(), detail::bytes(store), store.size(),
                       turns, out, room, needed);
    });
}

// Prints an equivalent program with a single loop.
inline Result oneloop(std::string_view text, std::string_view prog) { return detail::of_two(kat_oneloop, text, prog); }

// Rewrites a program by at most `steps` steps that the prover finds correct, and prints the steps and the program.
inline Result optimise(std::string_view text, std::string_view prog, std::uint64_t steps) {
    return detail::with_room([&](std::uint8_t *out, std::size_t room, std::size_t *needed) {
        return kat_optimise(detail::bytes(text), text.size(), detail::bytes(prog), prog.size(), steps, out, room, needed);
    });
}

}  // namespace kat

#endif
