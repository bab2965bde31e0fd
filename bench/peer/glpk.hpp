// GLPK: its simplex for linear programs (a row a node, a column a piece), and its out-of-kilter method.
#pragma once

#include "answer.hpp"

#include <glpk.h>

#include <climits>
#include <cmath>

// The simplex works in floating point; the flows of a corner of this program are whole, so they are rounded and priced anew.
inline Answer glpk_simplex(const Network& net) {
    glp_term_out(GLP_OFF);
    glp_prob* program = glp_create_prob();
    glp_set_obj_dir(program, GLP_MIN);
    glp_add_rows(program, net.nodes);
    for (int node = 0; node < net.nodes; ++node) {
        glp_set_row_bnds(program, node + 1, GLP_FX, double(net.supplies[node]), double(net.supplies[node]));
    }
    if (!net.pieces.empty()) glp_add_cols(program, int(net.pieces.size()));
    for (std::size_t place = 0; place < net.pieces.size(); ++place) {
        const Piece& piece = net.pieces[place];
        int column = int(place) + 1;
        int rows[3] = {0, piece.begin + 1, piece.end + 1};
        double entries[3] = {0, 1, -1};
        glp_set_mat_col(program, column, 2, rows, entries);
        glp_set_obj_coef(program, column, double(piece.price));
        glp_set_col_bnds(program, column, piece.room == ENDLESS ? GLP_LO : GLP_DB, 0, double(piece.room));
    }
    glp_smcp options;
    glp_init_smcp(&options);
    options.msg_lev = GLP_MSG_OFF;
    glp_adv_basis(program, 0);
    int failure = glp_simplex(program, &options);
    int status = glp_get_status(program);
    Answer answer{Kind::Unable};
    if (failure == 0 && status == GLP_OPT) {
        answer = {Kind::Optimal, net.cost};
        for (std::size_t place = 0; place < net.pieces.size(); ++place) {
            answer.cost += Wide(std::llround(glp_get_col_prim(program, int(place) + 1))) * net.pieces[place].price;
        }
    } else if (failure == 0 && status == GLP_NOFEAS) {
        answer = {Kind::Cut};
    } else if (failure == 0 && status == GLP_UNBND) {
        answer = {Kind::Unbounded};
    }
    glp_delete_prob(program);
    return answer;
}

// It wants capacities and sums that fit an int; where they don't it is unable.
inline Answer glpk_out_of_kilter(const Network& net) {
    struct Node { double supply; };
    struct Arc { double low, room, price, flow; };
    bool is_endless = has_endless_gain(net);
    Number bound = much(net);
    if (bound > INT_MAX) return {Kind::Unable};
    glp_term_out(GLP_OFF);
    glp_graph* graph = glp_create_graph(sizeof(Node), sizeof(Arc));
    glp_add_vertices(graph, net.nodes);
    for (int node = 0; node < net.nodes; ++node) {
        static_cast<Node*>(graph->v[node + 1]->data)->supply = double(net.supplies[node]);
    }
    std::vector<glp_arc*> arcs;
    arcs.reserve(net.pieces.size());
    for (const Piece& piece : net.pieces) {
        glp_arc* arc = glp_add_arc(graph, piece.begin + 1, piece.end + 1);
        double price = is_endless ? 0 : double(piece.price);
        *static_cast<Arc*>(arc->data) = {0, double(std::min(piece.room, bound)), price, 0};
        arcs.push_back(arc);
    }
    double sum;
    int status = glp_mincost_okalg(graph, offsetof(Node, supply), offsetof(Arc, low), offsetof(Arc, room), offsetof(Arc, price),
                                   &sum, offsetof(Arc, flow), -1);
    Answer answer{Kind::Unable};
    if (status == 0 && is_endless) {
        answer = {Kind::Unbounded};
    } else if (status == 0) {
        answer = {Kind::Optimal, net.cost};
        for (std::size_t place = 0; place < arcs.size(); ++place) {
            answer.cost += Wide(static_cast<Arc*>(arcs[place]->data)->flow) * net.pieces[place].price;
        }
    } else if (status == GLP_ENOPFS) {
        answer = {Kind::Cut};
    }
    glp_delete_graph(graph);
    return answer;
}
