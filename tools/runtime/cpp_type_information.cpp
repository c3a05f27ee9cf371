// Type information of the fundamental types, which clang writes where this destructor is defined, and what its table names.
// provides _ZT[IS](P|PK)?[a-z]$
// provides _ZT[IS](P|PK)?D[a-z]$
// provides _ZTVN10__cxxabiv123__fundamental_type_infoE$
#include <cxxabi.h>
#include <typeinfo>

namespace __cxxabiv1 {
__fundamental_type_info::~__fundamental_type_info() {}
}

namespace std {
type_info::~type_info() {}
bool type_info::__is_pointer_p() const { return false; }
bool type_info::__is_function_p() const { return false; }
bool type_info::__do_catch(const type_info *, void **, unsigned) const { __builtin_trap(); }
bool type_info::__do_upcast(const __cxxabiv1::__class_type_info *, void **) const { return false; }
}
