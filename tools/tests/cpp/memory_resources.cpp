// std::pmr: containers in a buffer, buffers that grow from a resource that counts, and the resources that the library has.
#include <hippo.h>
#include <memory_resource>
#include <string>
#include <vector>

struct Counting : std::pmr::memory_resource {
  long taken = 0, given = 0;
  void *do_allocate(std::size_t size, std::size_t alignment) override {
    taken = taken * 7 + size;
    return std::pmr::new_delete_resource()->allocate(size, alignment);
  }
  void do_deallocate(void *memory, std::size_t size, std::size_t alignment) override {
    given = given * 7 + size;
    std::pmr::new_delete_resource()->deallocate(memory, size, alignment);
  }
  bool do_is_equal(const memory_resource &other) const noexcept override { return this == &other; }
};

int main() {
  Counting counting;
  {
    char buffer[200];
    std::pmr::monotonic_buffer_resource resource(buffer, sizeof buffer, &counting);
    std::pmr::vector<long> numbers(&resource);
    for (long number = 0; number < 100; number++) numbers.push_back(number * number);
    std::pmr::string text("a text that is longer than a short one", &resource);
    print_i64(numbers[99] + text.size());
    print_i64(counting.taken);
    resource.release();
    print_i64(counting.given);
    print_i64(resource.upstream_resource() == &counting);
    void *aligned = resource.allocate(10, 128);
    print_i64(reinterpret_cast<std::uintptr_t>(aligned) % 128);
  }
  print_i64(counting.taken == counting.given);
  std::pmr::memory_resource *before = std::pmr::set_default_resource(&counting);
  {
    std::pmr::vector<int> numbers{1, 2, 3};
    print_i64(numbers.get_allocator().resource() == &counting);
  }
  print_i64(before == std::pmr::new_delete_resource());
  print_i64(std::pmr::get_default_resource()->is_equal(counting));
  std::pmr::monotonic_buffer_resource small(64, before);
  print_i64(small.allocate(8) != small.allocate(8));
  return 0;
}
