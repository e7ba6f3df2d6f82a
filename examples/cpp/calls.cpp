// SPDX-License-Identifier: MIT OR Apache-2.0
// A test of every call of kat.hpp: each answers what its command does. Prints the calls that do not, and ends with 1 then.
#include <iostream>
#include <string>
#include <string_view>

#include "kat.hpp"

namespace {

constexpr std::string_view equal = "test b; goal equal b, b;";
constexpr std::string_view different = "test b; goal equal b, 1;";
constexpr std::string_view program = "var x; prog P { x := x + 1; } prog Q { x := x + 2; } goal equal P, Q;";
constexpr std::string_view triple = "var x; prog P { x := 1; } goal triple {true} P {x == 1};";
constexpr std::string_view flow = "var u64 x; graph g { block e { return x; } } equal g, g;";
constexpr std::string_view gkat = "test b; action p; equal p +[b] p, p;";

int failed = 0;

void expect(std::string_view call, const kat::Result &result, kat::Status status, std::string_view start) {
    if (result.status == status && result.output.compare(0, start.size(), start) == 0) return;
    std::cout << call << ": status " << static_cast<int>(result.status) << ", " << result.output;
    failed = 1;
}

// A problem whose text, as show prints it, needs more room than a first call has.
std::string long_problem() {
    std::string problem = "test b; goal equal b";
    for (int terms = 0; terms < 20000; terms++) problem += " + b";
    return problem + ", b;";
}

void texts_of_one_kind() {
    using kat::Status;
    expect("decide", kat::decide(equal), Status::equal, "kat 2 equal\n");
    expect("decide", kat::decide(different), Status::different, "kat 1 different\n");
    expect("decide of nothing", kat::decide({}), Status::refused, "refused: NoGoal\n");
    expect("decide_json", kat::decide_json(equal), Status::equal, "{\"answer\":");
    expect("batch", kat::batch(equal), Status::equal, "goal 0\n");
    expect("show", kat::show(program), Status::equal, "# ");
    const kat::Result shown = kat::show(long_problem());
    expect("show of a long text", shown, Status::equal, "");
    if (shown.output.size() <= kat::first_room) failed = 1;
    expect("flow", kat::flow(flow), Status::equal, "");
    expect("gkat", kat::gkat(gkat), Status::equal, "test b");
    expect("outline", kat::outline(triple), Status::equal, "kat 1 outline\n");
}

void evidence_and_programs() {
    using kat::Status;
    const kat::Result string = kat::decide(different);
    expect("check", kat::check(different, string.output), Status::different, "accepted different\n");
    expect("check of another", kat::check(equal, string.output), Status::rejected, "rejected: ");
    expect("check of nothing", kat::check(equal, {}), Status::refused, "refused: evidence ");
    expect("replay", kat::replay(different, string.output), Status::equal, "0 ");
    expect("explain", kat::explain(different, string.output), Status::equal, "0: ");
    expect("chain", kat::chain(equal, {}), Status::refused, "refused: chain ");
    expect("outline_check", kat::outline_check(triple, kat::outline(triple).output), Status::equal, "accepted outline\n");
    expect("try_", kat::try_(program, 10), Status::different, "x=");
    expect("try_with", kat::try_with(program, 10, kat::decide(program).output), Status::different, "x=");
    expect("run", kat::run(program, "P", "x=1", 10), Status::equal, "done x=2\n");
    expect("run of none", kat::run(program, "R", "x=1", 10), Status::no_such, "refused: words\n");
    expect("oneloop", kat::oneloop(program, "P"), Status::equal, "");
    expect("optimise", kat::optimise(program, "P", 10), Status::equal, "");
}

}  // namespace

int main() {
    texts_of_one_kind();
    evidence_and_programs();
    if (kat::version != KAT_VERSION || kat::library_version() != kat::version || kat_version() != KAT_VERSION_NUMBER) {
        std::cout << "version: " << kat::library_version() << '\n';
        failed = 1;
    }
    return failed;
}
