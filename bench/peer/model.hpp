// A model as it stands in its text. The text is taken to be right: what is wrong with a text is no matter of a peer.
#pragma once

#include <cstddef>
#include <cstdio>
#include <cstdlib>
#include <string>
#include <string_view>
#include <unordered_map>
#include <vector>

using Number = long long;

// An infinite end of a curve, and a capacity without bound.
constexpr Number ENDLESS = Number(1) << 62;

// Breakpoints and slopes in turn: a stretch of all items of the model.
struct Curve {
    std::size_t first;
    std::size_t count;
    Number base;
};

struct ModelArc {
    int begin;
    int end;
    Curve curve;
};

struct Model {
    std::vector<Number> items;
    std::vector<Curve> supplies;
    std::vector<ModelArc> arcs;
};

inline std::string whole_file(const char* path) {
    std::FILE* file = std::fopen(path, "rb");
    if (!file) {
        std::fprintf(stderr, "peer: can't read %s\n", path);
        std::exit(64);
    }
    std::fseek(file, 0, SEEK_END);
    std::string text(std::size_t(std::ftell(file)), '\0');
    std::rewind(file);
    text.resize(std::fread(&text[0], 1, text.size(), file));
    std::fclose(file);
    return text;
}

// Goes over a text word by word; the end of a line is the empty word.
class Words {
public:
    explicit Words(std::string_view text) : at(text.data()), stop(text.data() + text.size()) {}

    bool is_over() const { return at == stop; }

    std::string_view next() {
        while (at != stop && (*at == ' ' || *at == '\t' || *at == '\r')) ++at;
        if (at == stop) return {};
        if (*at == '#') while (at != stop && *at != '\n') ++at;
        if (at == stop) return {};
        if (*at == '\n') {
            ++at;
            return {};
        }
        const char* begin = at;
        while (at != stop && *at != ' ' && *at != '\t' && *at != '\r' && *at != '\n' && *at != '#') ++at;
        return {begin, std::size_t(at - begin)};
    }

private:
    const char* at;
    const char* stop;
};

inline Number number_of(std::string_view word) {
    if (word == "-inf") return -ENDLESS;
    if (word == "+inf" || word == "inf") return ENDLESS;
    bool is_below = word[0] == '-';
    Number sum = 0;
    for (char digit : word.substr(word[0] == '-' || word[0] == '+')) sum = 10 * sum + (digit - '0');
    return is_below ? -sum : sum;
}

// The list and the base on the rest of a line; an empty list is the point 0.
inline Curve read_curve(Words& words, Model& model) {
    Curve curve{model.items.size(), 0, 0};
    for (std::string_view word = words.next(); !word.empty(); word = words.next()) {
        if (word == "base") {
            curve.base = number_of(words.next());
        } else {
            model.items.push_back(number_of(word));
        }
    }
    if (model.items.size() == curve.first) model.items.push_back(0);
    curve.count = model.items.size() - curve.first;
    return curve;
}

inline Model read_model(std::string_view text) {
    Model model;
    std::unordered_map<std::string_view, int> places;
    Words words(text);
    while (!words.is_over()) {
        std::string_view head = words.next();
        if (head == "node") {
            places.emplace(words.next(), int(model.supplies.size()));
            model.supplies.push_back(read_curve(words, model));
        } else if (head == "arc") {
            words.next();
            int begin = places.at(words.next());
            int end = places.at(words.next());
            model.arcs.push_back({begin, end, read_curve(words, model)});
        } else {
            while (!head.empty()) head = words.next();
        }
    }
    return model;
}
