// Memory resources: those that never change, the default one, and a buffer that only grows.
// provides _ZNK?St3pmr(15memory_resource|25monotonic_buffer_resource)
// provides _ZT[VIS]NSt3pmr(15memory_resource|25monotonic_buffer_resource)E$
// provides _ZNSt3pmr\d+(new_delete_resource|null_memory_resource|[gs]et_default_resource)
#include <memory_resource>
#include <new>

namespace std::pmr {
memory_resource::~memory_resource() = default;

namespace {
struct Heap : memory_resource {
  void *do_allocate(size_t bytes, size_t alignment) override { return ::operator new(bytes, align_val_t(alignment)); }
  void do_deallocate(void *memory, size_t bytes, size_t alignment) override { ::operator delete(memory, bytes, align_val_t(alignment)); }
  bool do_is_equal(const memory_resource &other) const noexcept override { return this == &other; }
};

struct Nothing : memory_resource {
  void *do_allocate(size_t, size_t) override { __builtin_trap(); }
  void do_deallocate(void *, size_t, size_t) override {}
  bool do_is_equal(const memory_resource &other) const noexcept override { return this == &other; }
};

// A resource that is never destroyed.
template <class Resource> union Kept {
  Resource resource;
  constexpr Kept() : resource() {}
  ~Kept() {}
};
constinit Kept<Heap> heap;
constinit Kept<Nothing> nothing;
constinit memory_resource *chosen = nullptr;
}

memory_resource *new_delete_resource() noexcept { return &heap.resource; }
memory_resource *null_memory_resource() noexcept { return &nothing.resource; }
memory_resource *get_default_resource() noexcept { return chosen ? chosen : new_delete_resource(); }
memory_resource *set_default_resource(memory_resource *resource) noexcept {
  memory_resource *before = get_default_resource();
  chosen = resource;
  return before;
}

// Stands at the end of each buffer. The size is a multiple of 64, so its lowest six bits have the power of the alignment.
class monotonic_buffer_resource::_Chunk {
public:
  _Chunk *next;
  size_t size_and_power;
};

void monotonic_buffer_resource::_M_new_buffer(size_t bytes, size_t alignment) {
  size_t wanted = bytes > _M_next_bufsiz ? bytes : _M_next_bufsiz, power = 4;
  while (size_t(1) << power < alignment) power++;
  size_t size = (wanted + sizeof(_Chunk) + 63) & ~size_t(63);
  _M_current_buf = _M_upstream->allocate(size, size_t(1) << power);
  _M_avail = size - sizeof(_Chunk);
  _M_next_bufsiz += _M_next_bufsiz / 2;
  _M_head = ::new (static_cast<char *>(_M_current_buf) + _M_avail) _Chunk{_M_head, size | power};
}

void monotonic_buffer_resource::_M_release_buffers() noexcept {
  while (_Chunk *chunk = _M_head) {
    size_t size = chunk->size_and_power & ~size_t(63), power = chunk->size_and_power & 63;
    _M_head = chunk->next;
    _M_upstream->deallocate(reinterpret_cast<char *>(chunk + 1) - size, size, size_t(1) << power);
  }
}

monotonic_buffer_resource::~monotonic_buffer_resource() {
  if (_M_head) _M_release_buffers();
}
}
