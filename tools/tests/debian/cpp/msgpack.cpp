// MessagePack: values that are packed into persistent memory and read from there.
#include "persistent_memory.hpp"
#include <map>
#include <msgpack.hpp>
#include <string>
#include <vector>

struct Buffer {
  std::size_t used;
  char bytes[4096];
  void write(const char *from, std::size_t count) {
    if (count > sizeof bytes - used) __builtin_trap();
    __builtin_memcpy(bytes + used, from, count);
    used += count;
  }
};
PERSISTENT static Buffer buffer;

int main() {
  std::map<std::string, std::vector<int>> lists;
  for (int i = 0; i < 60; i++) lists["list " + std::to_string(draw(12))].push_back(static_cast<int>(draw(100000)) - 50000);
  msgpack::packer<Buffer> packer(buffer);
  packer.pack(lists);
  packer.pack_array(4).pack(true).pack(2.5).pack(-7).pack(std::string(40, 'x'));
  print_i64(static_cast<long long>(buffer.used));
  persistent::persist(&buffer, sizeof buffer);
  std::size_t at = 0;
  msgpack::object_handle first = msgpack::unpack(buffer.bytes, buffer.used, at);
  persistent::Digest digest;
  for (auto &pair : first.get().as<std::map<std::string, std::vector<int>>>()) {
    digest.add(pair.first.c_str());
    for (int number : pair.second) digest.add(number);
  }
  digest.print();
  msgpack::object_handle second = msgpack::unpack(buffer.bytes, buffer.used, at);
  const msgpack::object &array = second.get();
  print_i64(array.via.array.size);
  print_i64(array.via.array.ptr[0].as<bool>());
  print_i64(static_cast<long long>(array.via.array.ptr[1].as<double>() * 100));
  print_i64(array.via.array.ptr[2].as<int>());
  print_i64(static_cast<long long>(array.via.array.ptr[3].as<std::string>().size()));
  print_i64(static_cast<long long>(at));
  return 0;
}
