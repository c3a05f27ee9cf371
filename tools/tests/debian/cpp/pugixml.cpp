// pugixml: a document over a persistent allocator, its changes and its paths.
#include "persistent_memory.hpp"
#include "pugixml.hpp"

static void *take(size_t size) { return persistent::take(size, 16); }
static void leave(void *) {}

struct Text : pugi::xml_writer {
  persistent::Digest digest;
  size_t size = 0;
  void write(const void *data, size_t count) override {
    for (size_t i = 0; i < count; i++) digest.add(static_cast<const unsigned char *>(data)[i]);
    size += count;
  }
};

int main() {
  pugi::set_memory_management_functions(take, leave);
  pugi::xml_document document;
  pugi::xml_parse_result result = document.load_string(
      "<store name='pages'><page id='1' size='64'>first &amp; best</page><page id='2' size='128'/><!-- note --><log><e/><e x='1.5'/></log></store>");
  print_i64(result.status);
  pugi::xml_node store = document.child("store");
  for (int i = 3; i < 20; i++) {
    pugi::xml_node page = store.append_child("page");
    page.append_attribute("id") = i;
    page.append_attribute("size") = draw(1000);
    page.text().set(i * 1.25);
  }
  store.remove_child(store.child("log"));
  int sum = 0;
  for (pugi::xml_node page : store.children("page")) sum += page.attribute("size").as_int() * page.attribute("id").as_int();
  print_i64(sum);
  print_i64(static_cast<long long>(store.select_nodes("page[@size > 500]").size()));
  print_i64(store.select_node("//page[@id='7']").node().attribute("size").as_int());
  print_i64(static_cast<long long>(pugi::xpath_query("sum(//page/@size) div 4").evaluate_number(document) * 100));
  Text text;
  document.save(text, " ");
  text.digest.print();
  print_i64(static_cast<long long>(text.size));
  persistent::persist(persistent::arena.bytes, persistent::arena.used);
  return 0;
}
