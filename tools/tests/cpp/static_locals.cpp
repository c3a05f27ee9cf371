// Objects that a function makes at its first call, in templates and inline functions too, and variables that files share.
#include <hippo.h>

struct Made {
  long number;
  explicit Made(long given) : number(given) { print_i64(number); }
  ~Made() { print_i64(-number); }
};

static long read() { return read_i64(); }

static Made &first() {
  static Made made(read());
  return made;
}

template <class T> T &of_type(T start) {
  static T held = start * 2;
  return held;
}

inline long &shared() {
  static long held = read() * 100;
  return held;
}

struct Single {
  static Single &only() {
    static Single single;
    return single;
  }
  Made inside{first().number + 1};
  long table[3] = {read(), read(), read()};
};

inline Made late{50};
inline long plain = read() + 1000;

static long deep(int level) {
  if (level == 0) return 0;
  static long at = level * 10;
  return at + deep(level - 1);
}

// input: 9 3 4 5 6 7 8
int main() {
  print_i64(plain);
  print_i64(of_type(3) + of_type(4L));
  of_type(0)++;
  print_i64(of_type(100));
  print_i64(Single::only().inside.number);
  print_i64(Single::only().table[2] + first().number);
  print_i64(shared());
  shared() += 5;
  print_i64(shared());
  print_i64(deep(3));
  return 0;
}
