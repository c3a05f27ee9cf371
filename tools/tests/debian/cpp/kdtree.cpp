// libkdtree++: a tree of points in three dimensions, over a persistent allocator.
#include "persistent_memory.hpp"
#include <kdtree++/kdtree.hpp>
#include <vector>

struct Point {
  using value_type = double;
  double at[3];
  int id;
  double operator[](std::size_t axis) const { return at[axis]; }
  bool operator==(const Point &other) const { return id == other.id; }
};
using Tree = KDTree::KDTree<3, Point, KDTree::_Bracket_accessor<Point>, KDTree::squared_difference<double, double>, std::less<double>,
                            persistent::Allocator<KDTree::_Node<Point>>>;

int main() {
  Tree &tree = *new (persistent::take(sizeof(Tree), 64)) Tree;
  std::vector<Point> points;
  for (int i = 0; i < 60; i++) {
    points.push_back({{draw(1000) / 7.0, draw(1000) / 11.0, draw(1000) / 13.0}, i});
    tree.insert(points.back());
  }
  for (int i = 0; i < 15; i++) tree.erase(points[i * 3]);
  for (int i = 0; i < 15; i++) {
    auto [found, distance] = tree.find_nearest(Point{{draw(140) + 0.5, draw(90) + 0.25, draw(76) + 0.125}, -1});
    print_i64(found->id);
    print_i64(static_cast<long long>(distance * 1e9));
  }
  tree.optimise();
  std::vector<Point> near;
  tree.find_within_range(Point{{70, 45, 38}, -1}, 25.0, std::back_inserter(near));
  persistent::Digest digest;
  for (auto &point : near) digest.add(point.id);
  digest.print();
  print_i64(static_cast<long long>(tree.size()));
  persistent::persist(&tree, sizeof tree);
  return 0;
}
