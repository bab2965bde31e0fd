// METHOD MODEL..: what another solver says of each model, a line each: `optimal COST`, `flow AMOUNT`, `cut`, `unbounded` or `unable`.
// The cost is that of the model, constants included, so it equals the cost that monotropic prints.
#pragma once

#include "answer.hpp"

struct Method {
    const char* name;
    Answer (*answer)(const Network& net);
};

// Without pieces every flow is fixed; some methods fail on a network without arcs.
inline Answer answer_of_fixed(const Network& net) {
    bool fits = std::all_of(net.supplies.begin(), net.supplies.end(), [](Number supply) { return supply == 0; });
    return fits ? Answer{Kind::Optimal, net.cost} : Answer{Kind::Cut};
}

// Reads and answers nothing: what the other methods take beyond it is solving.
inline Answer only_read(const Network&) { return {Kind::Unable}; }

template <std::size_t COUNT>
int answer_all(int count, char** words, const Method (&methods)[COUNT]) {
    for (const Method& method : methods) {
        if (count < 3 || std::string(words[1]) != method.name) continue;
        for (int place = 2; place < count; ++place) {
            std::string text = whole_file(words[place]);
            Network net = network_of(read_model(text));
            std::puts(text_of(net.pieces.empty() ? answer_of_fixed(net) : method.answer(net)).c_str());
        }
        return 0;
    }
    std::fprintf(stderr, "usage: %s METHOD MODEL..\n", words[0]);
    return 64;
}
