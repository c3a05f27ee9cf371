"""What the runtime does not have of the C++ library, by the first letters of mangled names."""
from __future__ import annotations

import re

from .refusals import Refused

CLASS = r"_Z(?:NK?|T[VITS]|GV)?N?K?St(?:7__cxx11)?\d*"
ROWS = (
    (
        rf"_ZSt3w?cin|_ZSt5w(?:cout|cerr|clog)|_ZNK?S[io]|_ZNK?Si|{CLASS}(?:basic_(?:i|if|of|f|o)?(?:string)?(?:stream|buf)|basic_(?:file|string|stream)buf)"
        rf"|_Z(?:NK?|T[VITS])?N?K?St6locale|_ZSt(?:9use|9has)_facet|{CLASS}ctype|_ZNK?St8ios_base|_ZNK?St9basic_ios|_ZSt7getline|_ZSt(?:ls|rs)",
        "stream",
        "streams that read or format: std::cout, std::cerr alone have a form",
    ),
    (
        r"_ZNK?St6thread|_ZT[VIS]NSt6thread|_ZNK?St18condition_variable|_ZNK?St28__atomic_futex|_Z\w*St13__future_base|_ZSt15future_category",
        "threads",
        "one thread runs",
    ),
    (
        r"_ZNK?St15__exception_ptr|_ZSt17current_exception|_ZSt17rethrow_exception|__cxa_(?:begin|end)_catch|_ZSt13set_terminate",
        "exception",
        "no exception is thrown, so none is kept or handled",
    ),
    (r"_Z\w*St10filesystem|_Z\w*St7__cxx1110filesystem", "files", "a file system has no form"),
    (
        r"_Z(?:NK?)?S[tabsiod]|_Z(?:NK?)?N9__gnu_cxx|_ZT[VIS](?:NK?)?St",
        "library",
        "the runtime does not have this part of the C++ library",
    ),
)


def refused_in_library(name: str) -> Refused | None:
    """Why a name of the C++ library that the program does not define is refused; nothing if it is no such name."""
    for form, kind, what in ROWS:
        if re.match(form, name):
            return Refused(what, kind, f"@{name}")
    return None
