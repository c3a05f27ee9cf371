// Boost.Heap: priority queues of five kinds, with changes of the priority, over a persistent allocator.
#include "persistent_memory.hpp"
#include <boost/heap/binomial_heap.hpp>
#include <boost/heap/d_ary_heap.hpp>
#include <boost/heap/fibonacci_heap.hpp>
#include <boost/heap/pairing_heap.hpp>
#include <boost/heap/skew_heap.hpp>

using namespace boost::heap;
using Memory = allocator<persistent::Allocator<long>>;

template <class Heap> static void drive() {
  Heap &heap = *new (persistent::take(sizeof(Heap), 64)) Heap;
  typename Heap::handle_type handles[40];
  for (int i = 0; i < 40; i++) {
    handles[i] = heap.push(static_cast<long>(draw(10000)));
    persistent::persist(&*handles[i], sizeof(long));
  }
  for (int i = 0; i < 20; i++) {
    heap.update(handles[draw(40)], static_cast<long>(draw(20000)));
    heap.increase(handles[i], *handles[i] + 5);
  }
  heap.erase(handles[7]);
  persistent::Digest digest;
  for (; !heap.empty(); heap.pop()) digest.add(heap.top());
  digest.print();
}

int main() {
  drive<binomial_heap<long, Memory>>();
  drive<fibonacci_heap<long, Memory>>();
  drive<pairing_heap<long, Memory>>();
  drive<skew_heap<long, mutable_<true>, Memory>>();
  drive<d_ary_heap<long, arity<4>, mutable_<true>, Memory>>();
  return 0;
}
