"""Programs in C that tools/lower refuses: the tests of refusals have a test for each of them."""

# The reason with its place, the advice, and the C after `#include <hippo.h>`.
REFUSED = {
    "long_double": (
        "bad.c:2: fmul of long double",
        "float or double",
        "long double twice(long double x) { return x * 2; }\nint main(void) { return twice(3.0L) == 6.0L; }",
    ),
    "long_double_integer": (
        "bad.c:2: sitofp to long double",
        "float or double",
        "int main(void) { volatile long double x = read_i64(); return sizeof x; }",
    ),
    "half": (
        "bad.c:2: fmul of _Float16",
        "float or double",
        "static _Float16 twice(_Float16 x) { return x * 2; }\n"
        "int main(void) { volatile _Float16 x = 3.0; x = twice(x); return 0; }",
    ),
    "quadruple": (
        "bad.c:3: fadd of __float128",
        "float or double",
        "__float128 q = 1;\nint main(void) { q += 2; return 0; }",
    ),
    "wide_float": (
        "bad.c:3: sitofp of i128",
        "float or double",
        "__int128 q = 1;\nint main(void) { return (int)((double)q / 3); }",
    ),
    "logarithm": (
        "bad.c:2: the intrinsic @llvm.log.f64",
        "float or double",
        "int main(void) { return __builtin_elementwise_log((double)read_i64()) > 3; }",
    ),
    "power": (
        "bad.c:3: the function @pow is not in the program",
        "add the C file",
        "double pow(double, double);\nint main(void) { return pow((double)read_i64(), 0.3) > 3; }",
    ),
    "vector": (
        "bad.c:4: the intrinsic @llvm.x86.sse2.psll.w",
        "SSE2",
        "PERSISTENT __m128i v;\nint main(void) {\n"
        "  v = _mm_sll_epi16(v, _mm_set1_epi64x(read_i64()));\n  return 0;\n}",
    ),
    "width": (
        "bad.c:3: mul of i256",
        "integers up to 128 bits",
        "_BitInt(256) n;\nint main(void) { n = n * 3; return (int)n; }",
    ),
    "atomic": (
        "bad.c:3: an atomic access",
        "--single-thread",
        "long long n;\nint main(void) { return (int)__atomic_load_n(&n, __ATOMIC_ACQUIRE); }",
    ),
    "exchange": (
        "bad.c:3: an atomic access",
        "--single-thread",
        "long long n;\nint main(void) { return (int)__atomic_exchange_n(&n, 3, __ATOMIC_ACQUIRE); }",
    ),
    "thread": (
        "bad.c:2: thread_local",
        "--single-thread",
        "_Thread_local long long n;\nint main(void) { return (int)n++; }",
    ),
    "fence": (
        "bad.c:2: a fence between threads",
        "--single-thread",
        "int main(void) { __atomic_thread_fence(__ATOMIC_SEQ_CST); return 0; }",
    ),
    "missing_function": (
        "bad.c:3: the function @open_pool is not in the program",
        "add the C file",
        "int open_pool(void);\nint main(void) { return open_pool(); }",
    ),
    "missing_variable": (
        "the variable @state is not in the program",
        "add the C file",
        "extern int state;\nint main(void) { return state; }",
    ),
    "output": (
        "bad.c:3: the function @puts: give --ignore-output or --print-numbers",
        "if its assumption holds for the program",
        'int puts(const char *);\nint main(void) { return puts("a"); }',
    ),
    "threads": (
        "bad.c:3: the function @pthread_mutex_lock: give --single-thread",
        "if its assumption holds for the program",
        "int pthread_mutex_lock(void *);\nint main(void) { return pthread_mutex_lock(0); }",
    ),
    "mismatch": (
        "a call of @f with another type than its own",
        "its own type",
        "static int f(int *a, int b) { return *a + b; }\nint main(void) { return ((int (*)(int))f)(1); }",
    ),
    "known": (
        "@print_i64 is an external function of hippo",
        "declare the function",
        "long long last;\nvoid print_i64(long long n) { last = n; }\nint main(void) { print_i64(3); return 0; }",
    ),
    "assembly": (
        "bad.c:2: inline assembly 'cpuid'",
        "<immintrin.h>",
        'int main(void) { __asm__ volatile("cpuid" ::: "eax", "ebx", "ecx", "edx"); return 0; }',
    ),
    "assembly_outside": (
        "inline assembly outside of functions",
        "<immintrin.h>",
        '__asm__(".globl other\\nother: ret");\nint main(void) { return 0; }',
    ),
    "nontemporal": (
        "bad.c:3: a non-temporal access",
        "--non-temporal",
        "PERSISTENT long long n;\nint main(void) { _mm_stream_si64(&n, 3); return 0; }",
    ),
    "array": (
        "an array whose length is not constant",
        "--array-bound",
        "int main(void) { long long n = read_i64(); char a[n]; pm_assert(a, 1); return 0; }",
    ),
    "main": (
        "bad.c:2: main uses its parameters",
        "--args",
        "int main(int argc, char **argv) { (void)argv; return argc; }",
    ),
    "main_type": (
        "bad.c:3: main has another result than int",
        "int main",
        '#pragma clang diagnostic ignored "-Wmain-return-type"\nvoid main(void) { print_i64(3); }',
    ),
    "main_called": (
        "bad.c:2: a call of main",
        "another name",
        "int main(void) { if (read_i64()) print_i64(main()); return 3; }",
    ),
    "main_address": (
        "bad.c:2: the address of main",
        "another name",
        "int main(void) { int (*volatile f)(void) = main; return read_i64() ? f() : 3; }",
    ),
    "main_in_data": (
        "the address of main",
        "another name",
        "int main(void);\nint (*table[2])(void) = {main, main};\nint main(void) { return table[read_i64()](); }",
    ),
    "section": (
        'bad.c:2: section ".pmem": by its name it is persistent, and only section ".pm" is',
        "PERSISTENT",
        '__attribute__((section(".pmem"))) long x;\nint main(void) { x = 1; _mm_clwb(&x); _mm_sfence(); return 0; }',
    ),
    "section_with_a_part": (
        'bad.c:2: section ".pm.log"',
        "PERSISTENT",
        '__attribute__((section(".pm.log"), used)) static long x;\nint main(void) { return 0; }',
    ),
    "section_that_nothing_reads": (
        'bad.c:3: section "my_persistent_data"',
        "PERSISTENT",
        'PERSISTENT long y;\n__attribute__((section("my_persistent_data"))) long x;\nint main(void) { y = 1; return 0; }',
    ),
    "section_by_a_pragma": (
        'bad.c:4: section ".pm" by a pragma',
        "PERSISTENT",
        '#pragma clang section bss=".pm"\n\nlong x;\n#pragma clang section bss=""\nint main(void) { x = 1; return 0; }',
    ),
    "section_in_capitals": (
        'bad.c:2: section "PM"',
        "PERSISTENT",
        '__attribute__((section("PM"))) long x;\nint main(void) { x = 1; return 0; }',
    ),
    "section_of_another_memory": (
        'bad.c:2: section ".nvram"',
        "PERSISTENT",
        '__attribute__((section(".nvram"))) long x;\nint main(void) { x = 1; return 0; }',
    ),
    "address": (
        "bad.c:3: an address in a field",
        "at the start of main",
        "char a[4];\nstruct __attribute__((packed)) { char c; char *where; } b = {1, a};\n"
        "int main(void) { return *b.where; }",
    ),
    "alignment": (
        "align 8192: at most 4096",
        "this limit",
        "_Alignas(8192) char a[8];\nint main(void) { return a[1]++; }",
    ),
}
