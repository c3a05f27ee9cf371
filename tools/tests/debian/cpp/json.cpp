// JSON for Modern C++: parse, change, write, and its binary forms; the texts are in persistent memory.
#include "persistent_memory.hpp"
#include <nlohmann/json.hpp>

using nlohmann::json;

static void keep(const std::string &text) {
  char *copy = static_cast<char *>(persistent::take(text.size() + 1, 64));
  text.copy(copy, text.size());
  persistent::persist(copy, text.size());
  persistent::Digest digest;
  digest.add(copy);
  print_i64(static_cast<long long>(text.size()));
  digest.print();
}

int main() {
  json page = json::parse(R"({"name": "log\u00e9", "sizes": [1, 2.5, -3e-7, 18446744073709551615],
    "empty": {}, "flag": true, "none": null})");
  page["sizes"].push_back(0.1 + 0.2);
  page["nested"]["deep"] = {{"a", 1}, {"b", {1, 2, 3}}};
  page.erase("empty");
  keep(page.dump());
  keep(page.dump(2));
  std::vector<std::uint8_t> packed = json::to_cbor(page);
  keep(std::string(packed.begin(), packed.end()));
  print_i64(json::from_cbor(packed) == page);
  print_i64(json::from_msgpack(json::to_msgpack(page)) == page);
  keep(page.flatten().dump());
  json changes = json::diff(json::parse("[1, 2, 3]"), json::parse("[1, 5, 3, 4]"));
  keep(changes.dump());
  print_i64(json::accept("{\"a\": [1, 2,]}"));
  print_i64(page.at("sizes")[3].get<std::uint64_t>() == 18446744073709551615u);
  print_i64(static_cast<long long>(page["sizes"][2].get<double>() * 1e12));
  return 0;
}
