// FlatBuffers: tables that are built and read in place, in persistent memory.
#include "persistent_memory.hpp"
#include <cstring>
#include <flatbuffers/flatbuffers.h>

namespace fb = flatbuffers;
enum { KEY = 4, NAME = 6, VALUES = 8 };

static fb::Offset<fb::Table> table_of(fb::FlatBufferBuilder &builder, int key) {
  std::vector<short> numbers;
  for (int i = 0; i < key % 7; i++) numbers.push_back(static_cast<short>(draw(1000)));
  auto values = builder.CreateVector(numbers);
  auto name = builder.CreateString("item " + std::to_string(key));
  fb::uoffset_t start = builder.StartTable();
  builder.AddElement<int>(KEY, key, 0);
  builder.AddOffset(NAME, name);
  builder.AddOffset(VALUES, values);
  return fb::Offset<fb::Table>(builder.EndTable(start));
}

int main() {
  fb::FlatBufferBuilder builder(64);
  std::vector<fb::Offset<fb::Table>> tables;
  for (int key = 0; key < 30; key++) tables.push_back(table_of(builder, key));
  auto all = builder.CreateVector(tables);
  fb::uoffset_t start = builder.StartTable();
  builder.AddOffset(KEY, all);
  builder.Finish(fb::Offset<fb::Table>(builder.EndTable(start)));
  auto *kept = static_cast<unsigned char *>(persistent::take(builder.GetSize(), 64));
  std::memcpy(kept, builder.GetBufferPointer(), builder.GetSize());
  persistent::persist(kept, builder.GetSize());
  print_i64(builder.GetSize());
  auto *root = fb::GetMutableRoot<fb::Table>(kept);
  auto *items = root->GetPointer<fb::Vector<fb::Offset<fb::Table>> *>(KEY);
  persistent::Digest digest;
  for (unsigned i = 0; i < items->size(); i++) {
    auto *item = const_cast<fb::Table *>(items->Get(i));
    digest.add(item->GetField<int>(KEY, 0));
    digest.add(item->GetPointer<const fb::String *>(NAME)->c_str());
    for (short number : *item->GetPointer<const fb::Vector<short> *>(VALUES)) digest.add(number);
    item->SetField<int>(KEY, static_cast<int>(i) * 3, 0);
  }
  digest.print();
  for (unsigned i = 0; i < items->size(); i++) digest.add(items->Get(i)->GetField<int>(KEY, 0));
  digest.print();
  persistent::persist(kept, builder.GetSize());
  return 0;
}
