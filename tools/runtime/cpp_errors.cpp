// The classes of errors of the standard library, as objects: nothing throws them here. The headers declare these members.
// provides _ZNK?St\d+(exception|bad_exception|bad_alloc|bad_cast|logic_error|runtime_error)([CD]|aS|4what)
// provides _ZNSt\d+(domain_error|invalid_argument|length_error|out_of_range|range_error|overflow_error|underflow_error)[CD]
// provides _ZT[VIS]St\d+(exception|bad_exception|bad_alloc|bad_cast|\w+_error|invalid_argument|out_of_range)$
#include <cstdlib>
#include <cstring>
#include <exception>
#include <new>
#include <stdexcept>
#include <string>
#include <typeinfo>

namespace std {
static const char *kept(const char *text, size_t size) {
  char *copy = static_cast<char *>(malloc(size + 1));
  if (!copy) __builtin_trap();
  memcpy(copy, text, size);
  copy[size] = 0;
  return copy;
}

__cow_string::__cow_string() : _M_p(kept("", 0)) {}
__cow_string::__cow_string(const string &text) : _M_p(kept(text.data(), text.size())) {}
__cow_string::__cow_string(const char *text, size_t size) : _M_p(kept(text, size)) {}
__cow_string::__cow_string(const __cow_string &from) noexcept : _M_p(kept(from._M_p, strlen(from._M_p))) {}
__cow_string &__cow_string::operator=(const __cow_string &from) noexcept {
  if (this != &from) {
    free(const_cast<char *>(_M_p));
    _M_p = kept(from._M_p, strlen(from._M_p));
  }
  return *this;
}
__cow_string::~__cow_string() { free(const_cast<char *>(_M_p)); }

exception::~exception() noexcept {}
const char *exception::what() const noexcept { return "std::exception"; }
bad_exception::~bad_exception() noexcept {}
const char *bad_exception::what() const noexcept { return "std::bad_exception"; }
bad_alloc::~bad_alloc() noexcept {}
const char *bad_alloc::what() const noexcept { return "std::bad_alloc"; }
bad_cast::~bad_cast() noexcept {}
const char *bad_cast::what() const noexcept { return "std::bad_cast"; }

logic_error::logic_error(const string &text) : exception(), _M_msg(text) {}
logic_error::logic_error(const char *text) : exception(), _M_msg(text, strlen(text)) {}
logic_error::logic_error(const logic_error &from) noexcept : exception(from), _M_msg(from._M_msg) {}
logic_error &logic_error::operator=(const logic_error &from) noexcept { return _M_msg = from._M_msg, *this; }
logic_error::~logic_error() noexcept {}
const char *logic_error::what() const noexcept { return _M_msg._M_p; }

runtime_error::runtime_error(const string &text) : exception(), _M_msg(text) {}
runtime_error::runtime_error(const char *text) : exception(), _M_msg(text, strlen(text)) {}
runtime_error::runtime_error(const runtime_error &from) noexcept : exception(from), _M_msg(from._M_msg) {}
runtime_error &runtime_error::operator=(const runtime_error &from) noexcept { return _M_msg = from._M_msg, *this; }
runtime_error::~runtime_error() noexcept {}
const char *runtime_error::what() const noexcept { return _M_msg._M_p; }

domain_error::domain_error(const string &text) : logic_error(text) {}
domain_error::domain_error(const char *text) : logic_error(text) {}
domain_error::~domain_error() noexcept {}
invalid_argument::invalid_argument(const string &text) : logic_error(text) {}
invalid_argument::invalid_argument(const char *text) : logic_error(text) {}
invalid_argument::~invalid_argument() noexcept {}
length_error::length_error(const string &text) : logic_error(text) {}
length_error::length_error(const char *text) : logic_error(text) {}
length_error::~length_error() noexcept {}
out_of_range::out_of_range(const string &text) : logic_error(text) {}
out_of_range::out_of_range(const char *text) : logic_error(text) {}
out_of_range::~out_of_range() noexcept {}
range_error::range_error(const string &text) : runtime_error(text) {}
range_error::range_error(const char *text) : runtime_error(text) {}
range_error::~range_error() noexcept {}
overflow_error::overflow_error(const string &text) : runtime_error(text) {}
overflow_error::overflow_error(const char *text) : runtime_error(text) {}
overflow_error::~overflow_error() noexcept {}
underflow_error::underflow_error(const string &text) : runtime_error(text) {}
underflow_error::underflow_error(const char *text) : runtime_error(text) {}
underflow_error::~underflow_error() noexcept {}
} // namespace std
