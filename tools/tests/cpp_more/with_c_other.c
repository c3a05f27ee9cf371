struct record {
  long key;
  int inline_count;
};
struct record records[3] = {{1, 10}, {.key = 2, .inline_count = 20}, {3, 30}};
long twice_in_cpp(long number);

long fold(const struct record *from, int count, long (*function)(long, const struct record *)) {
  long class = 0;
  for (int new = 0; new < count; new++) class = function(class, from + new);
  return twice_in_cpp(class);
}
