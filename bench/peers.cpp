// Searches by other hands on the same networks and pairs: by Boost, by LEMON, and by plain C++ without and with boxes.
// peers STEM WAY COUNT: reads STEM.gr, STEM.co and STEM.pairs, and searches the first COUNT pairs. WAY is `boost`, `lemon`,
// `plain`, or `boxed`, which draws the boxes first. Prints the sum of all lengths, the count of all settled nodes (0 where
// WAY does not count them) and the sum of all sides of all boxes (0 where WAY draws none).
#include <algorithm>
#include <cstdlib>
#include <iostream>
#include <boost/graph/compressed_sparse_row_graph.hpp>
#include <boost/graph/dijkstra_shortest_paths.hpp>
#define LEMON_ONLY_TEMPLATES
#include <lemon/dijkstra.h>
#include <lemon/static_graph.h>
#include "hand.hpp"

struct Totals { long long lengths = 0, settled = 0, sides = 0; };

// The arcs in the order of their tails, as both libraries want them.
struct Sorted {
    vector<pair<int, int>> ends;
    vector<int> weights;
    explicit Sorted(vector<Arc> arcs) {
        std::stable_sort(arcs.begin(), arcs.end(), [](const Arc &a, const Arc &b) { return a.tail < b.tail; });
        for (const Arc &arc : arcs) ends.push_back({arc.tail, arc.head}), weights.push_back(arc.weight);
    }
};

struct Arrived {};

struct Watch : boost::default_dijkstra_visitor {
    size_t target;
    long long *settled;
    Watch(size_t target, long long *settled) : target(target), settled(settled) {}
    template <class Graph> void examine_vertex(size_t node, const Graph &) {
        ++*settled;
        if (node == target) throw Arrived();
    }
};

Totals by_boost(const Network &net) {
    using Weight = boost::property<boost::edge_weight_t, int>;
    Sorted sorted(net.arcs);
    boost::compressed_sparse_row_graph<boost::directedS, boost::no_property, Weight> graph(
        boost::edges_are_sorted, sorted.ends.begin(), sorted.ends.end(), sorted.weights.begin(), net.n);
    auto index = get(boost::vertex_index, graph);
    vector<int> length(net.n);
    vector<size_t> before(net.n);
    Totals totals;
    for (auto [s, t] : net.pairs) {
        try {
            boost::dijkstra_shortest_paths(graph, s,
                boost::predecessor_map(boost::make_iterator_property_map(before.begin(), index))
                    .distance_map(boost::make_iterator_property_map(length.begin(), index))
                    .visitor(Watch(t, &totals.settled)));
        } catch (Arrived &) {
        }
        totals.lengths += length[t];
    }
    return totals;
}

Totals by_lemon(const Network &net) {
    Sorted sorted(net.arcs);
    lemon::StaticDigraph graph;
    graph.build(net.n, sorted.ends.begin(), sorted.ends.end());
    lemon::StaticDigraph::ArcMap<int> weight(graph);
    for (size_t e = 0; e < sorted.weights.size(); e++) weight[graph.arc(e)] = sorted.weights[e];
    lemon::Dijkstra<lemon::StaticDigraph> search(graph, weight);
    Totals totals;
    for (auto [s, t] : net.pairs) {
        search.run(graph.node(s), graph.node(t));
        totals.lengths += search.dist(graph.node(t));
    }
    return totals;
}

Totals by_hand(const Network &net, bool boxed) {
    Hand hand(net);
    Totals totals;
    if (boxed) {
        hand.build();
        for (auto &box : hand.boxes) for (int side : box) totals.sides += side;
    }
    for (auto [s, t] : net.pairs) {
        totals.settled += hand.search(s, t, hand.out, boxed);
        totals.lengths += hand.key[t] / 1024;
    }
    return totals;
}

int main(int count, char **words) {
    if (count != 4) return std::cerr << "usage: peers STEM WAY COUNT\n", 2;
    string way = words[2];
    Network net = read(words[1], atoi(words[3]));
    Totals totals = way == "boost" ? by_boost(net) : way == "lemon" ? by_lemon(net) : by_hand(net, way == "boxed");
    std::cout << totals.lengths << ' ' << totals.settled << ' ' << totals.sides << '\n';
}
