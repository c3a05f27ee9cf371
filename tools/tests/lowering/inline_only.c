// Functions that are inline and defined in no file.
// native: -O2
#include <hippo.h>
inline int triple(int x) { return x * 3; }
inline int again(int x) { return triple(x) + 1; }
int main(void) { print_i64(again((int)read_i64())); return 0; }
