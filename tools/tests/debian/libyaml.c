// LibYAML's parser, in persistent memory.
#include "draw.h"
#include <string.h>
#include <yaml.h>

static const char text[] = "list: [one, two, {three: 3}]\nmap:\n  first: &a value\n  second: *a\n  third: |\n    lines\n    of text\n";

int main(void) {
  yaml_parser_t parser;
  yaml_event_t event;
  long long sum = 0, count = 0;
  int is_last = 0;
  if (!yaml_parser_initialize(&parser)) return 1;
  yaml_parser_set_input_string(&parser, (const unsigned char *)text, strlen(text));
  while (!is_last && yaml_parser_parse(&parser, &event)) {
    is_last = event.type == YAML_STREAM_END_EVENT;
    sum = (sum * 31 + event.type) % 1000000007;
    if (event.type == YAML_SCALAR_EVENT)
      for (size_t i = 0; i < event.data.scalar.length; i++) sum = (sum * 31 + event.data.scalar.value[i]) % 1000000007;
    count++;
    yaml_event_delete(&event);
  }
  yaml_parser_delete(&parser);
  print_i64(count);
  print_i64(sum);
  return !is_last;
}
