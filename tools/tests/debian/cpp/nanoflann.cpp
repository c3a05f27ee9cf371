// nanoflann: a KD-tree index with its own pool of nodes over points in persistent memory.
#include "persistent_memory.hpp"
#include <nanoflann.hpp>

struct Cloud {
  float (*points)[2];
  std::size_t count;
  std::size_t kdtree_get_point_count() const { return count; }
  float kdtree_get_pt(std::size_t index, std::size_t axis) const { return points[index][axis]; }
  template <class Box> bool kdtree_get_bbox(Box &) const { return false; }
};
using Index = nanoflann::KDTreeSingleIndexAdaptor<nanoflann::L2_Simple_Adaptor<float, Cloud>, Cloud, 2>;

int main() {
  Cloud cloud{static_cast<float(*)[2]>(persistent::take(100 * sizeof(float[2]), 64)), 100};
  for (auto i = 0; i < 100; i++) cloud.points[i][0] = draw(1000) / 7.0f, cloud.points[i][1] = draw(1000) / 3.0f;
  persistent::persist(cloud.points, 100 * sizeof(float[2]));
  Index index(2, cloud, nanoflann::KDTreeSingleIndexAdaptorParams(6));
  index.buildIndex();
  for (int i = 0; i < 12; i++) {
    float wanted[2] = {draw(143) + 0.5f, draw(333) + 0.25f}, distances[3];
    unsigned found[3];
    print_i64(static_cast<long long>(index.knnSearch(wanted, 3, found, distances)));
    for (int k = 0; k < 3; k++) print_i64(static_cast<long long>(found[k])), print_i64(static_cast<long long>(distances[k] * 1000));
  }
  print_i64(static_cast<long long>(index.usedMemory(index)));
  return 0;
}
