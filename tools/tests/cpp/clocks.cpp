// Clocks do not run backward, and durations are converted.
#include <chrono>
#include <hippo.h>
int main() {
  using namespace std::chrono_literals;
  auto start = std::chrono::steady_clock::now();
  auto end = std::chrono::steady_clock::now();
  print_i64(end >= start);
  print_i64(std::chrono::duration_cast<std::chrono::milliseconds>(2s + 30ms + 400us).count());
  print_i64(std::chrono::system_clock::now() + 1h > std::chrono::system_clock::now());
  print_i64((90min).count() * (1h / 1min));
  print_i64(std::chrono::floor<std::chrono::hours>(-90min).count());
  std::chrono::year_month_day day = std::chrono::sys_days{std::chrono::days{19000}};
  print_i64(static_cast<int>(day.year()) * 10000 + static_cast<unsigned>(day.month()) * 100 + static_cast<unsigned>(day.day()));
  return 0;
}
