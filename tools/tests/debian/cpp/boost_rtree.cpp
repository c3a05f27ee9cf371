// Boost.Geometry: an R-tree of boxes with coordinates of type double, in persistent memory.
#include "persistent_memory.hpp"
#include <boost/geometry.hpp>
#include <boost/geometry/index/rtree.hpp>
#include <vector>

namespace bg = boost::geometry;
namespace bgi = boost::geometry::index;
using Point = bg::model::point<double, 2, bg::cs::cartesian>;
using Box = bg::model::box<Point>;
using Value = std::pair<Box, unsigned>;
using Tree = bgi::rtree<Value, bgi::rstar<8>, bgi::indexable<Value>, bgi::equal_to<Value>, persistent::Allocator<Value>>;

int main() {
  Tree &tree = *new (persistent::take(sizeof(Tree), 64)) Tree;
  std::vector<Value> kept;
  for (unsigned i = 0; i < 60; i++) {
    double x = draw(1000) / 8.0, y = draw(1000) / 8.0;
    Value value(Box(Point(x, y), Point(x + draw(80) / 10.0, y + draw(80) / 10.0)), i);
    tree.insert(value);
    kept.push_back(value);
  }
  for (unsigned i = 0; i < 20; i++) print_i64(static_cast<long long>(tree.remove(kept[draw(60)])));
  std::vector<Value> found;
  tree.query(bgi::intersects(Box(Point(10, 10), Point(70, 60))), std::back_inserter(found));
  unsigned long long sum = 0;
  for (auto &value : found) sum += value.second * value.second;
  print_i64(static_cast<long long>(sum));
  for (unsigned i = 0; i < 8; i++) {
    found.clear();
    tree.query(bgi::nearest(Point(draw(125), draw(125)), 3), std::back_inserter(found));
    for (auto &value : found) print_i64(value.second);
  }
  print_i64(static_cast<long long>(tree.size()));
  print_i64(static_cast<long long>(bg::get<0>(tree.bounds().max_corner()) * 1000));
  persistent::persist(&tree, sizeof tree);
  return 0;
}
