// LEMON's Preflow, from the model's first node to its last. It knows capacities alone, so the model has no supplies and no lower ends.
#pragma once

#include "answer.hpp"

#include <lemon/preflow.h>
#include <lemon/smart_graph.h>

inline Answer by_preflow(const Network& net) {
    using Graph = lemon::SmartDigraph;
    bool is_plain = std::all_of(net.supplies.begin(), net.supplies.end(), [](Number supply) { return supply == 0; });
    if (net.nodes < 3 || !is_plain) return {Kind::Unable};
    Graph graph;
    Graph::ArcMap<Number> room(graph);
    graph.reserveNode(net.nodes);
    graph.reserveArc(int(net.pieces.size()));
    for (int node = 0; node < net.nodes; ++node) graph.addNode();
    for (const Piece& piece : net.pieces) {
        if (piece.room == ENDLESS) return {Kind::Unable};
        room[graph.addArc(Graph::nodeFromId(piece.begin), Graph::nodeFromId(piece.end))] = piece.room;
    }
    lemon::Preflow<Graph, Graph::ArcMap<Number>> preflow(graph, room, Graph::nodeFromId(1), Graph::nodeFromId(net.nodes - 1));
    preflow.run();
    return {Kind::Flow, preflow.flowValue()};
}
