// SPDX-License-Identifier: MIT OR Apache-2.0
// Checks two rewritings of a loop, as examples/c/rewritings.c does and with the same output, by the header for C++17.
#include <iostream>
#include <string>
#include <string_view>

#include "kat.hpp"

namespace {

constexpr std::string_view before = "while i < n { sum := sum + i; i := i + 1; }";

struct Rewriting {
    std::string_view name, after;
};

constexpr Rewriting rewritings[] = {
    {"peeled", "if i < n { sum := sum + i; i := i + 1; while i < n { sum := sum + i; i := i + 1; } }"},
    {"hoisted", "if i < n { i := i + 1; while i < n { sum := sum + i; } }"},
};

std::string problem_of(std::string_view after) {
    std::string problem = "var i, n, sum;\nprog before { ";
    problem.append(before).append(" }\nprog after { ").append(after).append(" }\ngoal equal before, after;\n");
    return problem;
}

// Whether the problem was accepted as one.
bool judge(const Rewriting &rewriting) {
    const std::string problem = problem_of(rewriting.after);
    const kat::Result decided = kat::decide(problem);
    std::cout << rewriting.name << ": decide " << static_cast<int>(decided.status) << '\n';
    if (decided.status != kat::Status::equal && decided.status != kat::Status::different) {
        std::cout << decided.output;
        return false;
    }
    const kat::Result checked = kat::check(problem, decided.output);
    std::cout << rewriting.name << ": check " << static_cast<int>(checked.status) << ", " << checked.output;
    if (decided.status == kat::Status::different) {
        const kat::Result replayed = kat::replay(problem, decided.output);
        std::cout << rewriting.name << ": replay " << static_cast<int>(replayed.status) << '\n' << replayed.output;
    }
    return true;
}

}  // namespace

int main() {
    bool passed = true;
    for (const Rewriting &rewriting : rewritings) passed = judge(rewriting) && passed;
    return passed ? 0 : 1;
}
