// Boost.MultiIndex: one table with an ordered, a hashed, a ranked and a sequenced index, in persistent memory.
#include "persistent_memory.hpp"
#include <boost/multi_index/hashed_index.hpp>
#include <boost/multi_index/member.hpp>
#include <boost/multi_index/ordered_index.hpp>
#include <boost/multi_index/ranked_index.hpp>
#include <boost/multi_index/sequenced_index.hpp>
#include <boost/multi_index_container.hpp>

using namespace boost::multi_index;

struct Record {
  int id, age;
  long balance;
};
using Table = multi_index_container<
    Record,
    indexed_by<ordered_unique<member<Record, int, &Record::id>>, hashed_non_unique<member<Record, int, &Record::age>>,
               ranked_non_unique<member<Record, long, &Record::balance>>, sequenced<>>,
    persistent::Allocator<Record>>;

int main() {
  Table &table = *new (persistent::take(sizeof(Table), 64)) Table;
  for (int i = 0; i < 80; i++) {
    auto [at, is_new] = table.insert({static_cast<int>(draw(60)), static_cast<int>(draw(10)), static_cast<long>(draw(100000))});
    if (!is_new) table.modify(at, [](Record &record) { record.balance += 7, record.age = (record.age + 1) % 10; });
    persistent::persist(&*at, sizeof(Record));
    if (i % 9 == 8) table.get<1>().erase(static_cast<int>(draw(10)));
  }
  persistent::Digest digest;
  for (auto &record : table) digest.add(record.id * 1000003 + record.age * 1009 + record.balance);
  digest.print();
  for (auto &record : table.get<1>()) digest.add(record.id);
  digest.print();
  for (auto &record : table.get<2>()) digest.add(record.id);
  digest.print();
  for (auto &record : table.get<3>()) digest.add(record.id);
  digest.print();
  print_i64(static_cast<long long>(table.get<2>().rank(table.get<2>().lower_bound(50000))));
  print_i64(static_cast<long long>(table.get<1>().count(4)));
  table.get<3>().sort([](const Record &a, const Record &b) { return a.age < b.age || (a.age == b.age && a.id < b.id); });
  for (auto &record : table.get<3>()) digest.add(record.id);
  digest.print();
  return 0;
}
