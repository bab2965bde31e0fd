#include "flow.hpp"
#include "lemon.hpp"
#include "main.hpp"

// The two peers stand in programs of their own, so that none pays for the other's libraries at its start.
static const Method METHODS[] = {
    {"simplex", [](const Network& net) { return Lemon(net).by_simplex(); }},
    {"scaling", [](const Network& net) { return Lemon(net).by_scaling(); }},
    {"preflow", by_preflow},
    {"read", only_read},
};

int main(int count, char** words) { return answer_all(count, words, METHODS); }
