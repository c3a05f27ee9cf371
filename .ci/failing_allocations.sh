#!/usr/bin/env bash
# Tests out-of-memory paths; run it manually. Each command runs on the examples while its n-th allocation fails, for each n in
# turn. It must answer as with ample memory, or with exit code 7 and its line. Standard output must then be empty, or a prefix of
# the ample text for the commands that write while they run. If memory runs out while hippo reads the words, there is only the
# exit code. One line for each command gives the counts.
# usage: .ci/failing_allocations.sh [--try] [FIRST [LAST [STEP]]]
# It runs the built program with a malloc that fails (it needs a C compiler); without FIRST, for the first 100 allocations
# and for 200 of the others. With --try it runs the unproved program with `rt try --fail-alloc N`, which takes more than a
# minute for each N; without FIRST, for the 40th only.
top=$(cd "$(dirname "${BASH_SOURCE[0]}")/.." && pwd) || exit 2
program=$(realpath -m "${HIPPO_PROGRAM:-$top/out/hippo}")
by=preload
if [ "${1-}" = --try ]; then
  by=try
  shift
fi
given=("$@")
# is_range [FIRST [LAST [STEP]]]: each word is a number from 1, and FIRST is at most LAST
is_range() {
  local word
  for word in "$@"; do
    case $word in '' | 0* | *[!0-9]*) return 1 ;; esac
  done
  [ "$#" -le 3 ] && [ "${1:-1}" -le "${2:-${1:-1}}" ]
}
if ! is_range "$@"; then
  echo 'usage: .ci/failing_allocations.sh [--try] [FIRST [LAST [STEP]]]' >&2
  exit 2
fi
scratch=$(mktemp -d) || exit 2
trap 'rm -rf "$scratch"' EXIT
cp -r "$top/examples" "$scratch"
cd "$scratch/examples" || exit 2
failed=0

# run_try N WORD..: runs the program with `rt try`, which runs in another folder and adds its own lines to standard error
run_try() {
  local number=$1 words=() word
  shift
  for word in "$@"; do
    if [ -e "$word" ]; then word=$PWD/$word; fi
    words+=("$word")
  done
  (cd "$top/crates/hippo" && rt try --fail-alloc "$number" -- "${words[@]}") >out 2>said
  local code=$?
  grep '^hippo: ' said >notes
  return "$code"
}

# run_preload N WORD..: runs the built program, and writes the number of its allocations into the file `count`
run_preload() {
  local number=$1
  shift
  FAIL_ALLOC=$number ALLOCATIONS=$PWD/count LD_PRELOAD=$PWD/failing.so "$program" "$@" >out 2>notes
}

# make_preload: builds a malloc that fails at the allocation of number FAIL_ALLOC, and writes at the end how many there were
make_preload() {
  local compiler
  compiler=$(command -v cc clang gcc clang-19 | head -n 1)
  if [ -z "$compiler" ]; then
    echo 'memory: no C compiler is installed (--try needs none)' >&2
    exit 2
  fi
  cat >failing.c <<'C'
#include <stdio.h>
#include <stdlib.h>
void *__libc_malloc(size_t size);
void *__libc_realloc(void *block, size_t size);
static long number, taken;
__attribute__((constructor)) static void begin(void) { number = atol(getenv("FAIL_ALLOC")); }
void *malloc(size_t size) { return ++taken == number ? NULL : __libc_malloc(size); }
void *realloc(void *block, size_t size) { return ++taken == number ? NULL : __libc_realloc(block, size); }
__attribute__((destructor)) static void end(void) {
  long all = taken;
  number = 0;
  FILE *file = fopen(getenv("ALLOCATIONS"), "w");
  if (file) {
    fprintf(file, "%ld\n", all);
    fclose(file);
  }
}
C
  "$compiler" -shared -fPIC -O1 -fno-builtin -o failing.so failing.c || exit 2
  if [ ! -x "$program" ]; then
    echo 'memory: hippo is not built (./hippo --build builds it; --try needs no build)' >&2
    exit 2
  fi
}

# numbers ALL: prints the numbers of the allocations that fail in turn, if the command makes this many
numbers() {
  local all=$1
  if [ "${#given[@]}" -gt 0 ]; then
    seq "${given[0]}" "${given[2]:-1}" "${given[1]:-${given[0]}}"
  elif [ "$by" = try ]; then
    echo 40
  else
    seq 1 $((all < 100 ? all : 100))
    if [ "$all" -gt 100 ]; then seq 101 $(((all + 99) / 200 + 1)) "$all"; fi
  fi
}

# is_prefix COMMAND: standard output is empty, or a prefix of the ample text if the command writes while it runs
is_prefix() {
  case $1 in
    run | record | rerun | crash) cmp -s -n "$(wc -c <out)" out ample ;;
    *) [ ! -s out ] ;;
  esac
}

# is_out_of_memory COMMAND: the answer is out of memory
is_out_of_memory() {
  is_prefix "$1" && if [ -s notes ]; then [ "$(cat notes)" = 'hippo: out of memory' ]; else [ ! -s out ]; fi
}

# starves WORD..: runs a command with failing allocations, and prints its line
starves() {
  local n code ample all='' tried=0 short=0
  "run_$by" 1000000000 "$@"
  ample=$?
  mv out ample
  mv notes ample_notes
  if [ -f count ]; then all=$(cat count); fi
  for n in $(numbers "${all:-0}"); do
    "run_$by" "$n" "$@"
    code=$?
    tried=$((tried + 1))
    if [ "$code" -eq 7 ] && is_out_of_memory "$1"; then
      short=$((short + 1))
    elif [ "$code" -ne "$ample" ] || ! cmp -s out ample || ! cmp -s notes ample_notes; then
      failed=$((failed + 1))
      echo "hippo $*: allocation $n fails: exit code $code, $(wc -c <out) bytes written, $(head -c 200 notes)"
    fi
  done
  echo "hippo $*: exit code $ample; of its ${all:+$all }allocations $tried fail in turn, $short times out of memory"
}

if [ "$by" = preload ]; then make_preload; fi
starves repair hoisted_copy/copy.ll hoisted_copy/copy.trace
starves check key_value_log/log.ll key_value_log/log.trace
starves demo 1 8
starves record key_value_log/log.ll
starves run key_value_log/log.ll
starves many two_inputs/account.ll two_inputs/pay.trace two_inputs/move.trace
starves crash hoisted_copy/copy.ll hoisted_copy/copy.trace 3 0:1
starves thin spared_flush/notes.ll spared_flush/notes.trace
starves rerun key_value_log/log.ll key_value_log/log.trace
[ "$failed" -eq 0 ]
