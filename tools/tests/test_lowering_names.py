"""Names of C++: as the source has them, without the arguments of templates, and cut for a line of text."""
import shutil
import sys
import unittest
from pathlib import Path

sys.path.insert(0, str(Path(__file__).resolve().parents[1]))

from lowering.names import last_part, shortened, without_arguments  # noqa: E402
from lowering.users import shown  # noqa: E402

# Each name with its form without arguments, its last part, and its short form.
NAMES = (
    ("put", "put", "put", "put"),
    ("store::Table<unsigned long, unsigned long, 8ul>::put", "store::Table::put", "put", "store::Table<..>::put"),
    ("std::atomic<Node*>::store", "std::atomic::store", "store", "std::atomic<Node*>::store"),
    ("std::map<int, std::vector<int>>::operator[]", "std::map::operator[]", "operator[]", "std::map<..>::operator[]"),
    ("A<B>::operator<", "A::operator<", "operator<", "A<B>::operator<"),
    ("A<B>::operator<<", "A::operator<<", "operator<<", "A<B>::operator<<"),
    ("A::operator->", "A::operator->", "operator->", "A::operator->"),
    ("A<1>::operator()", "A::operator()", "operator()", "A<1>::operator()"),
    ("(anonymous namespace)::X<1>::f", "X::f", "f", "(anonymous namespace)::X<1>::f"),
    ("main::$_0::operator()", "main", "main", "main::$_0::operator()"),
    ("f(int)::local", "f::local", "local", "f(int)::local"),
    (
        "std::__cxx11::basic_string<char, std::char_traits<char>>::append",
        "std::__cxx11::basic_string::append",
        "append",
        "std::basic_string<..>::append",
    ),
    ("T<int>::~T", "T::~T", "~T", "T<int>::~T"),
    ("Table::walk<main::$_0>", "Table::walk", "walk", "Table::walk<main::$_0>"),
)

# Each mangled name with the name that a refusal shows.
SHOWN = (
    ("_ZNSt6thread6_StateD2Ev", "~std::thread"),
    ("_ZNSt13__future_base12_Result_baseC2Ev", "std::future"),
    ("_ZNSt15__exception_ptr13exception_ptrC1ERKS0_", "std::exception_ptr"),
    ("_ZNSt18condition_variable4waitIZ4mainE3$_0EEvRSt11unique_lockISt5mutexET_", "std::condition_variable::wait"),
    ("_ZTVSt14basic_ifstreamIcSt11char_traitsIcEE", "std::ifstream"),
    ("_ZNSt8__detail8_ScannerIcE10_M_advanceEv", "std::__detail::_Scanner::_M_advance"),
    ("_ZN5store6_TableC2Ev", "store::_Table"),
    ("read", "read"),
)


class Names(unittest.TestCase):
    """Each form of each name."""

    def test_names(self) -> None:
        """The forms are those of the table."""
        for name, without, last, short in NAMES:
            self.assertEqual((without_arguments(name), last_part(name), shortened(name)), (without, last, short), name)

    @unittest.skipUnless(shutil.which("llvm-cxxfilt-19"), "llvm-cxxfilt-19 is not installed")
    def test_names_in_refusals(self) -> None:
        """What the library keeps to itself is shown by the name that a program writes, if it has one."""
        for mangled, name in SHOWN:
            self.assertEqual(shown(f"@{mangled}"), name)


if __name__ == "__main__":
    unittest.main()
