// Queues with priorities, heaps, and each kind of sort.
#include <algorithm>
#include <hippo.h>
#include <queue>
#include <stack>
#include <vector>
struct Job {
  int weight;
  int number;
  bool operator<(const Job &other) const { return weight < other.weight; }
};
static long sum(const std::vector<Job> &jobs) {
  long found = 0;
  for (const Job &job : jobs) found = found * 11 + job.number;
  return found;
}
int main() {
  std::priority_queue<int> largest;
  std::priority_queue<int, std::vector<int>, std::greater<>> smallest;
  for (int number : {3, 1, 4, 1, 5, 9, 2, 6}) largest.push(number), smallest.push(number);
  long found = 0;
  for (; !largest.empty(); largest.pop(), smallest.pop()) found = found * 10 + largest.top() - smallest.top();
  print_i64(found);
  std::vector<Job> jobs;
  for (int number = 0; number < 12; number++) jobs.push_back({number * 5 % 4, number});
  std::stable_sort(jobs.begin(), jobs.end());
  print_i64(sum(jobs));
  std::sort(jobs.begin(), jobs.end(), [](const Job &a, const Job &b) { return a.number * 7 % 12 < b.number * 7 % 12; });
  print_i64(sum(jobs));
  std::nth_element(jobs.begin(), jobs.begin() + 4, jobs.end(), [](const Job &a, const Job &b) { return a.number < b.number; });
  print_i64(jobs[4].number);
  std::partial_sort(jobs.begin(), jobs.begin() + 3, jobs.end(), [](const Job &a, const Job &b) { return a.number > b.number; });
  print_i64(jobs[0].number * 100 + jobs[2].number);
  std::make_heap(jobs.begin(), jobs.end());
  std::pop_heap(jobs.begin(), jobs.end());
  print_i64(jobs.back().weight);
  std::stack<int> stack;
  std::queue<int> queue;
  for (int number = 1; number < 5; number++) stack.push(number), queue.push(number);
  print_i64(stack.top() * 10 + queue.front() + queue.back());
  std::inplace_merge(jobs.begin(), jobs.begin() + 6, jobs.end(), [](const Job &, const Job &) { return false; });
  print_i64(jobs.size());
  return 0;
}
