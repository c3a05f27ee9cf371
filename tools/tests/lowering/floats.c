// Floating-point numbers: constants, memory, structs, unions, calls by pointer, conversions of each width, and what is only moved.
#include <hippo.h>
#include <math.h>
#include <stdbool.h>
#include <stddef.h>
#include <string.h>

struct record { float weight; double mean; short count; float parts[3]; };
struct __attribute__((packed)) tight { char tag; double value; float rate; };
union either { double number; unsigned long long bits; float halves[2]; };

PERSISTENT static struct record kept = {1.5f, -2.25, 7, {0.1f, 1e-40f, -0.0f}};
static struct tight tight = {'t', 3.7, 1e10f};
static const double TABLE[] = {0.0, 1.0 / 3, 1e308, 5e-324, -1.0, 1e22};
static const float SMALL[2][2] = {{0.25f, 16777216.0f}, {3.4e38f, 1.1754944e-38f}};
static long double long_doubles[2] = {1.25L, -3.0L};
static volatile double input = 2.5;
static volatile float narrow = 0.3f;

static void show(double number) {
  long long bits;
  memcpy(&bits, &number, sizeof bits);
  print_i64(bits);
}

static void show_float(float number) {
  int bits;
  memcpy(&bits, &number, sizeof bits);
  print_i64(bits);
}

static double add(double a, double b) { return a + b; }
static double scale(double a, double b) { return a * b; }
static float blend(float a, double b, int c) { return a + (float)b + (float)c; }
static struct record doubled(struct record given, double by) {
  given.weight *= (float)by;
  given.mean *= by;
  return given;
}
static union either swapped(union either given) { return (union either){.bits = given.bits ^ 1}; }
static long double moved(long double number, int index) {
  long_doubles[index] = number;
  return long_doubles[!index];
}

static void memory(void) {
  kept.mean += input;
  kept.parts[1] *= 2;
  pmem_persist(&kept, sizeof kept);
  struct record other = doubled(kept, 0.5);
  show_float(other.weight), show(other.mean), show_float(other.parts[1]), print_i64(other.count);
  tight.value -= narrow;
  show(tight.value), show_float(tight.rate);
  union either either = {.number = input};
  either = swapped(either);
  show(either.number), show_float(either.halves[1]);
  for (size_t i = 0; i < sizeof TABLE / sizeof *TABLE; i++) show(TABLE[i] * input);
  for (int i = 0; i < 4; i++) show_float(SMALL[i / 2][i % 2] * narrow);
}

static void calls(void) {
  double (*const OPERATIONS[])(double, double) = {add, scale};
  float (*mix)(float, double, int) = blend;
  double sum = 0;
  for (int i = 0; i < 6; i++) sum = OPERATIONS[i % 2](sum, i + input);
  show(sum);
  show_float(mix(narrow, input, 3));
  long double far = moved(long_doubles[0], 1);
  print_i64(memcmp(&far, &long_doubles[1], 10) == 0);
}

static void conversions(void) {
  double number = input * 50.5;
  print_i64((signed char)number), print_i64((unsigned char)number), print_i64((short)-number), print_i64((unsigned short)number);
  print_i64((int)-number), print_i64((unsigned)number), print_i64((long long)-number), print_i64((long long)(unsigned long long)number);
  print_i64((bool)number), print_i64((bool)(number - number)), print_i64((long long)(number * 1e15));
  print_i64((long long)(unsigned long long)(number * 1e17)), print_i64((int)(narrow * 1000)), print_i64((unsigned char)(narrow * 700));
  volatile signed char tiny = -5;
  volatile unsigned short middle = 65535;
  volatile unsigned long long large = 18446744073709551615u;
  volatile bool yes = true;
  show(tiny), show(middle), show((double)large), show_float((float)large), show(yes), show_float((float)(long long)large), show_float(tiny);
  struct { signed int low : 5; unsigned int high : 7; } fields = {-3, 100};
  show(fields.low + narrow), show(fields.high / input);
  fields.low = (int)-input;
  print_i64(fields.low);
}

static void choices(void) {
  double largest = -HUGE_VAL, none = NAN;
  for (int i = 0; i < 6; i++) {
    double x = TABLE[i] - input;
    largest = x > largest ? x : largest;
    print_i64((x < 0) | (x <= -2.5) << 1 | (x == -2.5) << 2 | (x != x) << 3 | !(x >= none) << 4 | signbit(x) << 5);
  }
  show(largest);
  show(fabs(-input)), show(-input), show(copysign(input, -0.0)), show(floor(-input)), show(ceil(narrow)), show(round(input));
  show(trunc(-narrow)), show(sqrt(input)), show_float(sqrtf(narrow)), show(fma(input, input, -6.25)), show(fmin(input, narrow)), show_float(fmaxf(narrow, 0.5f));
  show(rint(3.5 * narrow)), print_i64(lround(input)), print_i64(isnan(none)), print_i64(isinf(1 / (input - input)));
  print_i64(fpclassify(narrow * 1e-40f));
}

int main(void) {
  memory();
  calls();
  conversions();
  choices();
  return 0;
}
