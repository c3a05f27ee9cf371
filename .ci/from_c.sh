#!/usr/bin/env bash
# Tests tools/lower. It must lower each program in examples/from_c to the text that is stored in the same folder. That text, the
# repaired one and the C program, each built for the processor, must print what is stored. Without the tools of LLVM 19 it tests
# nothing, and one line says so; where CI is set, it fails. With --quick it leaves out the random programs of csmith, whose runs
# are too long for an unproved build.
case $* in
  '') is_whole=true ;;
  --quick) is_whole=false ;;
  *)
    echo 'usage: .ci/from_c.sh [--quick]' >&2
    exit 2
    ;;
esac
cd "$(dirname "${BASH_SOURCE[0]}")/.." || exit 2
folder=examples/from_c
passed=0
failed=0
export LABEL="from C"
# shellcheck source=/dev/null
source .ci/counting.sh
for tool in python3 clang-19 opt-19 llvm-as-19 llvm-link-19 llc-19; do
  if ! command -v "$tool" >/dev/null; then
    skip "$tool is not installed"
    exit "$failed"
  fi
done
if [ "$(uname -m)" != x86_64 ]; then
  skip 'the processor is no x86-64'
  exit "$failed"
fi
scratch=$(mktemp -d) || exit 2
trap 'rm -rf "$scratch"' EXIT

# A processor without clwb gets clflush in its place, which has the same type.
if grep -qw clwb /proc/cpuinfo; then flush=llvm.x86.clwb; else flush=llvm.x86.sse2.clflush; fi

# build TEXT PROGRAM: builds an executable from LLVM's text form
build() {
  sed "s/@llvm\.x86\.clwb\b/@$flush/" "$1" >"$scratch/build.ll" &&
    llc-19 --trap-unreachable -mtriple=x86_64-pc-linux-gnu -relocation-model=pic -mattr=+clwb,+clflushopt \
      -filetype=obj -o "$scratch/build.o" "$scratch/build.ll" &&
    clang-19 -Itools -o "$2" "$scratch/build.o" tools/external_functions.c
}

# compiled FILE TEXT FLAG..: compiles a C program with clang into LLVM's text form
compiled() {
  clang-19 -O1 -fwrapv -fno-strict-aliasing -mclwb -Itools "${@:3}" -S -emit-llvm -o "$2" "$1"
}

# prints TEXT INPUT OUTPUT: the program built from the text prints these bytes
prints() {
  build "$1" "$scratch/program" && "$scratch/program" <"$2" >"$scratch/printed" && cmp -s "$scratch/printed" "$3"
}

# shows FILE: the page of the examples has the file as a block of its own
shows() {
  local page block
  page=$(cat "$folder/README.md")
  block='```'$'\n'"$(cat "$1")"$'\n''```'
  [ "${page/"$block"/}" != "$page" ]
}

# options NAME: the options of tools/lower for a program
options() {
  if [ "$1" = store ]; then echo --pool store.pool=64K; fi
}

# native NAME: compiles a C program with clang; for `store`, files of the runtime replace libpmem
native() {
  compiled "$folder/$1.c" "$scratch/c.ll"
  if [ "$1" = store ]; then
    for file in tools/runtime/pool.c tools/runtime/libpmem.c tools/tests/store_pool.c; do
      compiled "$file" "$scratch/part.ll" -D_GNU_SOURCE -Itools/runtime
      llvm-link-19 -S -o "$scratch/c.ll" "$scratch/c.ll" "$scratch/part.ll"
    done
  fi
}

for name in log allocator undo store; do
  input=/dev/null
  if [ -f "$folder/$name.in" ]; then input=$folder/$name.in; fi
  # shellcheck disable=SC2046  # the options are words
  tools/lower $(options "$name") "$folder/$name.c" >"$scratch/$name.ll" 2>"$scratch/notes"
  count "$name.c is lowered to another text" cmp -s "$scratch/$name.ll" "$folder/$name.ll"
  count "$name.ll prints something else" prints "$folder/$name.ll" "$input" "$folder/$name.out"
  count "README.md shows another output of $name" shows "$folder/$name.out"
  native "$name"
  count "$name.c prints something else" prints "$scratch/c.ll" "$input" "$folder/$name.out"
  count "$name.repaired.ll prints something else" prints "$folder/$name.repaired.ll" "$input" "$folder/$name.out"
done

# If hippo is built, its runs of the texts must print the same and stop with 0, and it must make the stored traces and
# repaired texts.
hippo=$(realpath -m "${HIPPO_PROGRAM:-out/hippo}")
# ends NOTES WORD..: runs a command, which must end with code 0 and these notes
ends() {
  local notes=$1
  shift
  "$hippo" "$@" >"$scratch/printed" 2>"$scratch/notes" && [ "$(tail -n 1 "$scratch/notes")" = "$notes" ]
}
# runs NAME: hippo runs a text and its repaired text as stored
runs() {
  local numbers=()
  if [ -f "$folder/$1.in" ]; then mapfile -t numbers < <(tr ' ' '\n' <"$folder/$1.in"); fi
  ends 'stop 0' run "$folder/$1.ll" "${numbers[@]}" && cmp -s "$scratch/printed" "$folder/$1.out" &&
    ends 'stop 0' run "$folder/$1.repaired.ll" "${numbers[@]}" && cmp -s "$scratch/printed" "$folder/$1.out" &&
    ends 'stop 0' record "$folder/$1.ll" "${numbers[@]}" && cmp -s "$scratch/printed" "$folder/$1.trace"
}
# mends NAME: hippo makes the stored repaired text and its trace, and reports nothing on them
mends() {
  "$hippo" repair "$folder/$1.ll" "$folder/$1.trace" 2>/dev/null | cmp -s - "$folder/$1.repaired.ll" &&
    ends 'after 0' rerun "$folder/$1.ll" "$folder/$1.trace" && cmp -s "$scratch/printed" "$folder/$1.repaired.trace" &&
    ends 'reports 0' check "$folder/$1.repaired.ll" "$folder/$1.repaired.trace"
}
if [ -x "$hippo" ]; then
  for name in log allocator undo store; do
    count "hippo run $name.ll prints something else" runs "$name"
    count "hippo repair $name.ll gives something else" mends "$name"
  done
else
  skip 'hippo is not built, so its runs are left out'
fi

# Compares the lowered code of intrinsics at each level, and of forms that clang rarely writes, with LLVM's own builds.
compiled tools/tests/intrinsics.c "$scratch/intrinsics.ll"
cp tools/tests/forms.ll "$scratch/forms.ll"
for name in intrinsics forms; do
  count "$name is not built" build "$scratch/$name.ll" "$scratch/program"
  "$scratch/program" >"$scratch/$name.out"
  count "$name prints nothing" test -s "$scratch/$name.out"
done
for level in -O0 '-O0 --mem2reg' -O1 -O2 -Os; do
  # shellcheck disable=SC2086  # a level is one word or two
  tools/lower $level tools/tests/intrinsics.c >"$scratch/lowered.ll" 2>"$scratch/notes"
  count "intrinsics.c prints something else at $level" prints "$scratch/lowered.ll" /dev/null "$scratch/intrinsics.out"
done
tools/lower tools/tests/forms.ll >"$scratch/lowered.ll" 2>"$scratch/notes"
count "forms.ll prints something else" prints "$scratch/lowered.ll" /dev/null "$scratch/forms.out"

# Random programs, if csmith is installed.
if ! $is_whole; then
  echo 'from C: skipped: the random programs of csmith, with --quick'
elif ! command -v csmith >/dev/null || ! compgen -G '/usr/include/csmith*/csmith.h' >/dev/null && ! compgen -G '/usr/local/include/csmith*/csmith.h' >/dev/null; then
  echo 'from C: skipped: csmith or its header is not installed (Debian: csmith, libcsmith-dev)'
elif [ -x "$hippo" ]; then
  count 'a random program differs' python3 -B tools/tests/random_programs.py --hippo "$hippo" --count 6
fi

echo "from C: $passed passed, $failed failed"
[ "$failed" -eq 0 ]
