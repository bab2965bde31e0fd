// The same model for a solver that knows supplies, capacities and prices alone: each piece of a curve is an arc of its own.
//
// A curve becomes a flow that is fixed, at its lower end (its first finite point), and parallel arcs for what goes beyond it.
// Since slopes rise, a cheapest plan fills them in order. A piece without a lower end runs backwards, at minus its slope.
#pragma once

#include "model.hpp"

#include <algorithm>
#include <vector>

using Wide = __int128;

struct Piece {
    int begin;
    int end;
    Number room;
    Number price;
};

// Node 0 is the ground, from which every supply comes.
struct Network {
    int nodes = 1;
    std::vector<Number> supplies;
    std::vector<Piece> pieces;
    // What the fixed flows cost.
    Wide cost = 0;
};

// The cost of the curve at one of its finite points: 0, or the base, at the flow of its domain nearest to 0.
inline Wide cost_at(const Number* items, std::size_t count, Number base, Number flow) {
    Number rest = std::clamp(Number(0), items[0], items[count - 1]);
    Wide cost = base;
    for (std::size_t at = 0; at + 2 < count; at += 2) {
        Number left = items[at], slope = items[at + 1], right = items[at + 2];
        cost += Wide(slope) * (std::clamp(flow, left, right) - std::clamp(rest, left, right));
    }
    return cost;
}

inline void add_curve(Network& net, const Model& model, int begin, int end, const Curve& curve) {
    const Number* items = &model.items[curve.first];
    Number fixed = items[0];
    if (fixed == -ENDLESS) fixed = items[2] == ENDLESS ? 0 : items[2];
    net.cost += cost_at(items, curve.count, curve.base, fixed);
    net.supplies[begin] -= fixed;
    net.supplies[end] += fixed;
    for (std::size_t at = 0; at + 2 < curve.count; at += 2) {
        Number left = items[at], slope = items[at + 1], right = items[at + 2];
        if (left == -ENDLESS) net.pieces.push_back({end, begin, ENDLESS, -slope});
        if (right == ENDLESS) net.pieces.push_back({begin, end, ENDLESS, slope});
        if (left != -ENDLESS && right != ENDLESS) net.pieces.push_back({begin, end, right - left, slope});
    }
}

inline Network network_of(const Model& model) {
    Network net;
    net.nodes = int(model.supplies.size()) + 1;
    net.supplies.assign(net.nodes, 0);
    net.pieces.reserve(model.items.size() / 2);
    for (int node = 1; node < net.nodes; ++node) add_curve(net, model, 0, node, model.supplies[node - 1]);
    for (const ModelArc& arc : model.arcs) add_curve(net, model, arc.begin + 1, arc.end + 1, arc.curve);
    return net;
}

// More than any flow that a cheapest plan needs on one piece, where there is one: it can stand for no bound.
inline Number much(const Network& net) {
    Number sum = 1;
    for (Number supply : net.supplies) sum += supply < 0 ? -supply : supply;
    for (const Piece& piece : net.pieces) sum += piece.room == ENDLESS ? 0 : piece.room;
    return sum;
}

// Whether pieces without a bound lead round a circuit that earns. Where some flow fits, no plan is bounded exactly then.
inline bool has_endless_gain(const Network& net) {
    std::vector<Piece> endless;
    for (const Piece& piece : net.pieces) {
        if (piece.room == ENDLESS) endless.push_back(piece);
    }
    if (std::none_of(endless.begin(), endless.end(), [](const Piece& piece) { return piece.price < 0; })) return false;
    std::vector<Number> reach(net.nodes, 0);
    std::vector<int> from(net.nodes, -1);
    for (int round = 0; round < net.nodes; ++round) {
        bool is_changed = false;
        for (const Piece& piece : endless) {
            Number here = reach[piece.begin] + piece.price;
            if (here < reach[piece.end]) {
                reach[piece.end] = here;
                from[piece.end] = piece.begin;
                is_changed = true;
            }
        }
        if (!is_changed) return false;
        // A circuit among the nodes from which others were reached earns; looked for now and then, it ends most searches early.
        if ((round & (round + 1)) == 0 || round + 1 == net.nodes) {
            std::vector<int> seen(net.nodes, -1);
            for (int start = 0; start < net.nodes; ++start) {
                int node = start;
                while (node >= 0 && seen[node] < 0) {
                    seen[node] = start;
                    node = from[node];
                }
                if (node >= 0 && seen[node] == start) return true;
            }
        }
    }
    return true;
}
