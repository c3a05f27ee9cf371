// The members of std::wstring that the headers declare and the system's library defines: made here from the same headers.
// provides _ZNK?St7__cxx1112basic_stringIwSt11char_traitsIwESaIwEE
// provides _ZNK?SaIwE
#include <string>

template class std::basic_string<wchar_t>;
template class std::allocator<wchar_t>;
