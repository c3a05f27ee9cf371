// Pointers that share, watch and own, with deleters and with one block for the object and its count.
// options: --single-thread
#include <hippo.h>
#include <memory>
#include <vector>
struct Noted : std::enable_shared_from_this<Noted> {
  long number;
  std::weak_ptr<Noted> other;
  explicit Noted(long given) : number(given) {}
  virtual ~Noted() { print_i64(-number); }
};
struct Derived : Noted {
  using Noted::Noted;
};
int main() {
  auto one = std::make_shared<Noted>(1);
  std::shared_ptr<Noted> two = std::make_shared<Derived>(2);
  one->other = two;
  two->other = one;
  print_i64(one.use_count() * 100 + two.use_count() * 10 + one->other.lock()->number);
  std::weak_ptr<Noted> watched = one->shared_from_this();
  one.reset();
  print_i64(watched.expired() + 2 * two->other.expired());
  std::shared_ptr<long> member(two, &two->number);
  two = nullptr;
  print_i64(*member);
  member.reset();
  std::shared_ptr<Noted> with_deleter(new Noted(3), [](Noted *noted) { print_i64(30), delete noted; });
  auto copy = std::dynamic_pointer_cast<Derived>(with_deleter);
  print_i64(copy == nullptr);
  std::unique_ptr<Noted> owned = std::make_unique<Derived>(4);
  std::unique_ptr<long[]> array(new long[3]{1, 2, 3});
  print_i64(owned->number + array[2]);
  with_deleter = std::move(owned);
  print_i64(!owned);
  std::vector<std::unique_ptr<Noted>> all;
  for (long number = 5; number < 8; number++) all.push_back(std::make_unique<Noted>(number));
  all.erase(all.begin() + 1);
  return 0;
}
