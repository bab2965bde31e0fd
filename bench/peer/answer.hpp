// What a peer says of a model.
#pragma once

#include "network.hpp"

#include <string>

enum class Kind { Optimal, Flow, Cut, Unbounded, Unable };

struct Answer {
    Kind kind;
    Wide cost = 0;
};

inline std::string decimal(Wide number) {
    if (number == 0) return "0";
    bool is_below = number < 0;
    std::string digits;
    for (; number != 0; number /= 10) {
        int digit = int(number % 10);
        digits.insert(digits.begin(), char('0' + (digit < 0 ? -digit : digit)));
    }
    return is_below ? "-" + digits : digits;
}

inline std::string text_of(const Answer& answer) {
    switch (answer.kind) {
    case Kind::Optimal: return "optimal " + decimal(answer.cost);
    case Kind::Flow: return "flow " + decimal(answer.cost);
    case Kind::Cut: return "cut";
    case Kind::Unbounded: return "unbounded";
    default: return "unable";
    }
}
