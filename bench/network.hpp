// The network and the pairs that the peers search, as networks.py wrote them.
#pragma once
#include <fstream>
#include <sstream>
#include <string>
#include <utility>
#include <vector>

using std::pair;
using std::string;
using std::vector;

struct Arc { int tail, head, weight; bool closed = false; };

// Nodes and arcs are numbered from 0 here.
struct Network {
    int n = 0;
    vector<Arc> arcs;
    vector<int> x, y;
    vector<pair<int, int>> pairs;
};

Network read(const string &stem, int count) {
    Network net;
    string line, word;
    for (std::ifstream file(stem + ".gr"); getline(file, line);) {
        std::istringstream words(line);
        Arc arc;
        if (line[0] == 'p') words >> word >> word >> net.n;
        else if (words >> word >> arc.tail >> arc.head >> arc.weight) {
            arc.tail--, arc.head--;
            net.arcs.push_back(arc);
        }
    }
    for (std::ifstream file(stem + ".co"); getline(file, line);) {
        std::istringstream words(line);
        int node, x, y;
        if (line[0] == 'v' && words >> word >> node >> x >> y) net.x.push_back(x), net.y.push_back(y);
    }
    std::ifstream file(stem + ".pairs");
    for (int s, t; count > 0 && file >> s >> t; count--) net.pairs.push_back({s - 1, t - 1});
    return net;
}
