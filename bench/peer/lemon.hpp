// LEMON's NetworkSimplex and CostScaling.
#pragma once

#include "answer.hpp"

#include <lemon/cost_scaling.h>
#include <lemon/network_simplex.h>
#include <lemon/smart_graph.h>

#include <limits>

class Lemon {
public:
    explicit Lemon(const Network& net) : net(net), room(graph), price(graph), supply(graph) {
        graph.reserveNode(net.nodes);
        graph.reserveArc(int(net.pieces.size()));
        for (int node = 0; node < net.nodes; ++node) graph.addNode();
        for (const Piece& piece : net.pieces) {
            Graph::Arc arc = graph.addArc(Graph::nodeFromId(piece.begin), Graph::nodeFromId(piece.end));
            room[arc] = piece.room;
            price[arc] = piece.price;
        }
        for (int node = 0; node < net.nodes; ++node) supply[Graph::nodeFromId(node)] = net.supplies[node];
    }

    // It sees a circuit without a bound that earns by itself, also where no flow fits: then prices of 0 tell which it is.
    Answer by_simplex() {
        using Simplex = lemon::NetworkSimplex<Graph, Number, Number>;
        set_endless(std::numeric_limits<Number>::max());
        Simplex simplex(graph);
        simplex.upperMap(room).costMap(price).supplyMap(supply);
        switch (simplex.run()) {
        case Simplex::OPTIMAL: return {Kind::Optimal, cost_of(simplex)};
        case Simplex::INFEASIBLE: return {Kind::Cut};
        default: break;
        }
        Graph::ArcMap<Number> free(graph, 0);
        simplex.costMap(free);
        return {simplex.run() == Simplex::OPTIMAL ? Kind::Unbounded : Kind::Cut};
    }

    // It wants a capacity on each arc whose price is below 0, so circuits without a bound are looked for before. On networks of a few
    // nodes LEMON 1.3.1 reads past an array here (in its price refinement), and may never end: it is no peer for tiny models.
    Answer by_scaling() {
        using Scaling = lemon::CostScaling<Graph, Number, Number>;
        bool is_endless = has_endless_gain(net);
        set_endless(much(net));
        Graph::ArcMap<Number> free(graph, 0);
        Scaling scaling(graph);
        scaling.upperMap(room).costMap(is_endless ? free : price).supplyMap(supply);
        if (scaling.run() != Scaling::OPTIMAL) return {Kind::Cut};
        if (is_endless) return {Kind::Unbounded};
        return {Kind::Optimal, cost_of(scaling)};
    }

private:
    using Graph = lemon::SmartDigraph;

    void set_endless(Number bound) {
        for (std::size_t place = 0; place < net.pieces.size(); ++place) {
            if (net.pieces[place].room == ENDLESS) room[Graph::arcFromId(int(place))] = bound;
        }
    }

    template <typename Method>
    Wide cost_of(const Method& method) const {
        Wide cost = net.cost;
        for (std::size_t place = 0; place < net.pieces.size(); ++place) {
            cost += Wide(method.flow(Graph::arcFromId(int(place)))) * net.pieces[place].price;
        }
        return cost;
    }

    const Network& net;
    Graph graph;
    Graph::ArcMap<Number> room;
    Graph::ArcMap<Number> price;
    Graph::NodeMap<Number> supply;
};
