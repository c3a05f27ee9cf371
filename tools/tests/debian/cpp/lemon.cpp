// LEMON: graphs, shortest paths and flows; the distances are in persistent memory.
#include "persistent_memory.hpp"
#include <lemon/dijkstra.h>
#include <lemon/list_graph.h>
#include <lemon/preflow.h>
#include <lemon/smart_graph.h>
#include <lemon/kruskal.h>

using namespace lemon;

int main() {
  ListDigraph graph;
  ListDigraph::ArcMap<int> length(graph);
  ListDigraph::Node nodes[30];
  for (auto &node : nodes) node = graph.addNode();
  for (int i = 0; i < 120; i++) {
    auto arc = graph.addArc(nodes[draw(30)], nodes[draw(30)]);
    length[arc] = static_cast<int>(1 + draw(100));
    if (i % 10 == 9) graph.erase(arc);
  }
  Dijkstra<ListDigraph> paths(graph, length);
  paths.run(nodes[0]);
  long *distances = static_cast<long *>(persistent::take(30 * sizeof(long), 64));
  for (int i = 0; i < 30; i++) distances[i] = paths.reached(nodes[i]) ? paths.dist(nodes[i]) : -1;
  persistent::persist(distances, 30 * sizeof(long));
  for (int i = 0; i < 30; i++) print_i64(distances[i]);
  Preflow<ListDigraph> flow(graph, length, nodes[0], nodes[29]);
  flow.run();
  print_i64(flow.flowValue());
  SmartGraph roads;
  SmartGraph::EdgeMap<int> costs(roads);
  for (int i = 0; i < 20; i++) roads.addNode();
  for (int i = 0; i < 60; i++) {
    auto from = roads.nodeFromId(static_cast<int>(draw(20))), to = roads.nodeFromId(static_cast<int>(draw(20)));
    costs[roads.addEdge(from, to)] = static_cast<int>(draw(50));
  }
  SmartGraph::EdgeMap<bool> tree(roads);
  print_i64(kruskal(roads, costs, tree));
  return 0;
}
