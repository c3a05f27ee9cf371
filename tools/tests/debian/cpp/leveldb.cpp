// LevelDB: its memory table, its log and its table file, both over files in persistent memory.
#include "persistent_memory.hpp"
#include "db/dbformat.h"
#include "db/log_reader.h"
#include "db/log_writer.h"
#include "db/memtable.h"
#include "db/skiplist.h"
#include "db/write_batch_internal.h"
#include "leveldb/comparator.h"
#include "leveldb/env.h"
#include "leveldb/filter_policy.h"
#include "leveldb/iterator.h"
#include "leveldb/options.h"
#include "leveldb/table.h"
#include "leveldb/table_builder.h"
#include "leveldb/write_batch.h"
#include "util/crc32c.h"
#include <cstring>

namespace leveldb {
Env *Env::Default() { return nullptr; }
} // namespace leveldb
using namespace leveldb;

class File : public WritableFile, public SequentialFile, public RandomAccessFile {
public:
  explicit File(size_t room) : bytes_(static_cast<char *>(persistent::take(room, 64))) {}
  Status Append(const Slice &data) override {
    memcpy(bytes_ + size_, data.data(), data.size());
    size_ += data.size();
    return Status::OK();
  }
  Status Close() override { return Status::OK(); }
  Status Flush() override { return Status::OK(); }
  Status Sync() override {
    persistent::persist(bytes_, size_);
    return Status::OK();
  }
  Status Read(size_t n, Slice *result, char *) override {
    n = n < size_ - at_ ? n : size_ - at_;
    *result = Slice(bytes_ + at_, n);
    at_ += n;
    return Status::OK();
  }
  Status Skip(uint64_t n) override {
    at_ += n;
    return Status::OK();
  }
  Status Read(uint64_t offset, size_t n, Slice *result, char *) const override {
    *result = Slice(bytes_ + offset, n);
    return Status::OK();
  }
  size_t size() const { return size_; }

private:
  char *bytes_;
  size_t size_ = 0, at_ = 0;
};

int main() {
  InternalKeyComparator comparator(BytewiseComparator());
  MemTable *memory = new MemTable(comparator);
  memory->Ref();
  File *file = new File(16384), *table_file = new File(16384);
  log::Writer writer(file);
  for (int i = 0; i < 40; i++) {
    WriteBatch batch;
    std::string key = "key" + std::to_string(draw(60));
    if (draw(5)) {
      batch.Put(key, "value " + std::to_string(draw(1000)));
    } else {
      batch.Delete(key);
    }
    WriteBatchInternal::SetSequence(&batch, i + 1);
    print_i64(writer.AddRecord(WriteBatchInternal::Contents(&batch)).ok());
    file->Sync();
    WriteBatchInternal::InsertInto(&batch, memory);
  }
  log::Reader reader(file, nullptr, true, 0);
  Slice record;
  std::string scratch;
  persistent::Digest digest;
  for (int count = 0; reader.ReadRecord(&record, &scratch); count++) digest.add(crc32c::Value(record.data(), record.size()));
  digest.print();
  Options options;
  options.comparator = &comparator;
  options.compression = kNoCompression;
  options.block_size = 256;
  const FilterPolicy *bloom = NewBloomFilterPolicy(10);
  InternalFilterPolicy filter(bloom);
  options.filter_policy = &filter;
  TableBuilder builder(options, table_file);
  Iterator *all = memory->NewIterator();
  for (all->SeekToFirst(); all->Valid(); all->Next()) builder.Add(all->key(), all->value());
  print_i64(builder.Finish().ok());
  table_file->Sync();
  print_i64(static_cast<long long>(builder.NumEntries() * 100000 + builder.FileSize()));
  Table *table = nullptr;
  print_i64(Table::Open(options, table_file, table_file->size(), &table).ok());
  Iterator *rows = table->NewIterator(ReadOptions());
  for (rows->SeekToFirst(); rows->Valid(); rows->Next()) digest.add(rows->value().ToString().c_str());
  digest.print();
  for (int i = 0; i < 10; i++) {
    std::string value;
    Status status;
    LookupKey key("key" + std::to_string(draw(60)), 100);
    print_i64(memory->Get(key, &value, &status) ? status.ok() : 2);
  }
  delete rows;
  delete all;
  delete table;
  delete bloom;
  memory->Unref();
  return 0;
}
