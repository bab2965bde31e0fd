#include "glpk.hpp"
#include "main.hpp"

static const Method METHODS[] = {
    {"glpk", glpk_simplex},
    {"kilter", glpk_out_of_kilter},
};

int main(int count, char** words) { return answer_all(count, words, METHODS); }
