// The members of std::string that the headers declare and the system's library defines: made here from the same headers.
// provides _ZNK?St7__cxx1112basic_stringIcSt11char_traitsIcESaIcEE
// provides _ZNK?SaIcE
#include <string>

template class std::basic_string<char>;
template class std::allocator<char>;
