// Searches without and with boxes, and the drawing of boxes, as one writes them in plain C++.
#pragma once
#include <algorithm>
#include <array>
#include <functional>
#include <limits>
#include <queue>
#include "network.hpp"

// The arcs of each node by one of their ends, in the order of their numbers; `onward` is the other end.
struct Index {
    vector<int> first, order;
    int Arc::*onward;
    Index(const Network &net, int Arc::*end, int Arc::*onward) : first(net.n + 1), order(net.arcs.size()), onward(onward) {
        for (const Arc &arc : net.arcs) first[arc.*end + 1]++;
        for (int v = 0; v < net.n; v++) first[v + 1] += first[v];
        vector<int> place = first;
        for (size_t e = 0; e < net.arcs.size(); e++) order[place[net.arcs[e].*end]++] = e;
    }
};

// The hand-written searches. A key is 1,024 times the length plus the count of arcs, so that ties fall as in the route box.
struct Hand {
    const Network &net;
    Index out, in;
    vector<std::array<int, 4>> boxes;
    vector<long long> key;

    explicit Hand(const Network &net)
        : net(net), out(net, &Arc::tail, &Arc::head), in(net, &Arc::head, &Arc::tail), boxes(net.arcs.size()), key(net.n) {}

    bool holds(int e, int t) const {
        auto [left, right, low, high] = boxes[e];
        return left <= net.x[t] && net.x[t] <= right && low <= net.y[t] && net.y[t] <= high;
    }

    // Returns how many nodes were settled, the target counted; with target -1 all that can be reached.
    int search(int s, int t, const Index &index, bool boxed) {
        using Entry = pair<long long, int>;
        std::priority_queue<Entry, vector<Entry>, std::greater<Entry>> open;
        vector<char> done(net.n);
        std::fill(key.begin(), key.end(), -1);
        key[s] = 0;
        open.push({0, s});
        int settled = 0;
        while (!open.empty()) {
            auto [least, u] = open.top();
            open.pop();
            if (done[u]) continue;
            done[u] = 1;
            settled++;
            if (u == t) break;
            for (int place = index.first[u]; place < index.first[u + 1]; place++) {
                int e = index.order[place];
                if (net.arcs[e].closed || (boxed && !holds(e, t))) continue;
                int v = net.arcs[e].*index.onward;
                long long offered = least + net.arcs[e].weight * 1024LL + 1;
                if (key[v] < 0 || offered < key[v]) {
                    key[v] = offered;
                    open.push({offered, v});
                }
            }
        }
        return settled;
    }

    void grow(int e, int t) {
        auto &[left, right, low, high] = boxes[e];
        left = std::min(left, net.x[t]);
        right = std::max(right, net.x[t]);
        low = std::min(low, net.y[t]);
        high = std::max(high, net.y[t]);
    }

    void build() {
        int most = std::numeric_limits<int>::max();
        for (auto &box : boxes) box = {most, -most, most, -most};
        for (int t = 0; t < net.n; t++) {
            search(t, -1, in, false);
            for (size_t e = 0; e < boxes.size(); e++) {
                const Arc &arc = net.arcs[e];
                if (!arc.closed && key[arc.head] >= 0 && key[arc.tail] / 1024 == key[arc.head] / 1024 + arc.weight) grow(e, t);
            }
        }
        // a box that nothing grew holds nothing
        for (auto &box : boxes)
            if (box[1] < box[0]) box = {1, 0, 1, 0};
    }
};
