// TinyXML-2: a document, its changes and its text, which is kept in persistent memory.
#include "persistent_memory.hpp"
#include <cstring>
#include <tinyxml2.h>

using namespace tinyxml2;

int main() {
  XMLDocument document;
  print_i64(document.Parse("<store name='pages'><page id='1' size='64'>first &amp; best</page><page id='2'/><!-- note --><log><e x='1.5'/></log></store>"));
  XMLElement *store = document.FirstChildElement("store");
  for (int i = 3; i < 20; i++) {
    XMLElement *page = store->InsertNewChildElement("page");
    page->SetAttribute("id", i);
    page->SetAttribute("size", static_cast<int>(draw(1000)));
    page->SetText(i * 1.25);
  }
  print_i64(static_cast<long long>(store->FirstChildElement("log")->FirstChildElement("e")->DoubleAttribute("x") * 100));
  store->DeleteChild(store->FirstChildElement("log"));
  int sum = 0;
  for (XMLElement *page = store->FirstChildElement("page"); page; page = page->NextSiblingElement("page"))
    sum += page->IntAttribute("size") * page->IntAttribute("id");
  print_i64(sum);
  XMLPrinter printer;
  document.Print(&printer);
  char *kept = static_cast<char *>(persistent::take(printer.CStrSize(), 64));
  std::memcpy(kept, printer.CStr(), printer.CStrSize());
  persistent::persist(kept, printer.CStrSize());
  persistent::Digest digest;
  digest.add(kept);
  digest.print();
  print_i64(printer.CStrSize());
  print_i64(document.Parse("<a><b></a>"));
  return 0;
}
