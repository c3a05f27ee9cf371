// Linked lists: splices, merges, sorts, reversals and removals.
#include <forward_list>
#include <hippo.h>
#include <list>
template <class List> static long sum(const List &list) {
  long found = 0;
  for (int number : list) found = found * 10 + number;
  return found;
}
int main() {
  std::list<int> one{5, 1, 4}, two{2, 3};
  one.sort();
  one.merge(two);
  print_i64(sum(one) * 10 + two.empty());
  one.reverse();
  two = {7, 8, 9};
  one.splice(std::next(one.begin(), 2), two, std::next(two.begin()));
  print_i64(sum(one) * 100 + sum(two));
  one.splice(one.begin(), two);
  one.remove_if([](int number) { return number % 2 == 0; });
  print_i64(sum(one));
  one.insert(one.end(), {3, 3, 3});
  one.unique();
  print_i64(sum(one) + one.size());
  one.emplace_front(6);
  std::swap(one, two);
  print_i64(sum(two) * 10 + one.size());
  two.erase(two.begin(), std::next(two.begin(), 2));
  two.push_back(two.front());
  two.pop_front();
  print_i64(sum(two));
  std::list<int> single{1};
  single.splice(single.end(), single, single.begin());
  std::swap(single, one);
  print_i64(sum(one) + single.size());
  std::forward_list<int> forward{3, 1, 2};
  forward.push_front(9);
  forward.insert_after(forward.begin(), 8);
  forward.sort();
  forward.reverse();
  print_i64(sum(forward));
  return 0;
}
