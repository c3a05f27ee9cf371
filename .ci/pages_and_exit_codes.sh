#!/usr/bin/env bash
# Runs the program on real files. Each console block of README, of docs/COMMANDS.md and of the pages of examples runs in a copy of the page's
# folder: standard output and standard error must be the block's text, and each written file must equal the stored one. Then
# come bad input, the exit codes that no page shows, and the answers of a fresh clone. With --quick it runs only what an
# unproved build can do, which needs more memory and time.
case $* in
  '') is_whole=true size=50000 ;;
  --quick) is_whole=false size=200 ;;
  *)
    echo 'usage: .ci/pages_and_exit_codes.sh [--quick]' >&2
    exit 2
    ;;
esac
top=$(cd "$(dirname "${BASH_SOURCE[0]}")/.." && pwd) || exit 2
cd "$top" || exit 2
scratch=$(mktemp -d) || exit 2
trap 'rm -rf "$scratch"' EXIT
PATH=$top/tools:$PATH
hippo() { "$top/hippo" "$@"; }
export top
export -f hippo

passed=0
failed=0
export LABEL=case
# shellcheck source=/dev/null
source .ci/counting.sh

# commands BLOCK: writes a script that prints each command of a block, and runs it
commands() {
  sed -n 's/^\$ //p' "$1" | while IFS= read -r command; do
    printf 'printf "%%s\\n" %q\n%s\n' "\$ $command" "$command"
  done
}

# runs BLOCK FOLDER: the block's commands print its text
runs() {
  commands "$1" >"$scratch/script"
  (cd "$2" && bash "$scratch/script") >"$scratch/printed" 2>&1
  cmp "$1" "$scratch/printed" || { diff "$1" "$scratch/printed" | head -n 5; false; }
}

# keeps FOLDER COPY: no file of the folder has changed in the copy
keeps() {
  local file
  for file in "$1"/*; do
    if [ -f "$file" ]; then cmp "$file" "$2/${file##*/}" || return 1; fi
  done
}

# page FILE FOLDER: runs the console blocks of a page in a copy of the folder
page() {
  local block
  rm -rf "$scratch/room" "$scratch"/block.*
  mkdir "$scratch/room"
  ln -sfn "$top/tools" "$scratch/room/tools"
  ln -sfn "$top/tools" "$scratch/tools"
  cp -r "$2" "$scratch/room/folder"
  awk -v name="$scratch/block." '/^```console$/ { n++; on = 1; next } /^```$/ { on = 0 } on { print > (name n) }' "$1"
  for block in "$scratch"/block.*; do
    if [ -e "$block" ] && grep -q '^\$ hippo-c ' "$block" && ! command -v clang-19 >/dev/null; then
      skip "block ${block##*.} of $1: clang-19 is not installed"
    elif [ -e "$block" ]; then count "$1: block ${block##*.}" runs "$block" "$scratch/room/folder"; fi
  done
  count "$2: its files" keeps "$2" "$scratch/room/folder"
}

page README.md examples
page docs/COMMANDS.md examples
for folder in examples/*/; do
  if [ -e "${folder}README.md" ]; then page "${folder}README.md" "${folder%/}"; fi
done

# helps LINE: the example of a line of the help runs in examples/, and ends with 0
helps() { (cd examples && eval "hippo ${1##* hippo }") >/dev/null 2>"$scratch/notes"; }
"$top/hippo" --help | grep '  hippo ' >"$scratch/help"
count 'a line of the help for each command' [ "$(wc -l <"$scratch/help")" -eq 9 ]
while IFS= read -r line; do count "help: ${line##* hippo }" helps "$line" </dev/null; done <"$scratch/help"

# answers CODE LINE WORD..: nothing on standard output, and the first line on standard error
answers() {
  local code=$1 line=$2 got
  shift 2
  hippo "$@" >"$scratch/out" 2>"$scratch/notes"
  got=$?
  [ "$got" -eq "$code" ] && [ ! -s "$scratch/out" ] && [ "$(head -n 1 "$scratch/notes")" = "$line" ] && return
  echo "exit $got, first line '$(head -n 1 "$scratch/notes")'; wanted exit $code, '$line'"
  false
}

# expect CODE LINE WORD..: the same as a case
expect() { count "hippo ${*:3}" answers "$@"; }

program=examples/one_store/one_store.ll
trace=examples/one_store/one_store.trace
sed 's/0x5/0x6/' "$trace" >"$scratch/other.trace"
printf 'define i32 @main() {\nentry:\n  ret float 0\n}\n' >"$scratch/float.ll"
printf 'define i32 @main() {\nentry:\n  br label %%loop\nloop:\n  br label %%loop\n}\n' >"$scratch/loop.ll"
printf '@x = global i64 0\n' >"$scratch/no_main.ll"
head -c 16777217 /dev/zero | tr '\0' ' ' >"$scratch/large.ll"

expect 1 'hippo: usage'
expect 1 'hippo: usage' mend a b
expect 1 'hippo: usage' run "$program" --limit x
expect 1 'hippo: usage' run --help
expect 1 'hippo: usage' many "$program"
for command in check repair rerun thin; do
  expect 2 'hippo: no file: program' "$command" "$scratch/none.ll" "$trace"
  expect 2 'hippo: no file: trace' "$command" "$program" "$scratch/none.trace"
  expect 3 'hippo: read fault' "$command" "$scratch" "$trace"
  expect 3 'hippo: read fault' "$command" "$program" "$scratch"
  expect 5 'hippo: program line 3: unsupported' "$command" "$scratch/float.ll" "$trace"
  expect 5 'hippo: program: no main at program' "$command" "$scratch/no_main.ll" "$trace"
  expect 6 'hippo: trace entry 3: differs' "$command" "$program" "$scratch/other.trace"
  expect 8 'hippo: program too large' "$command" "$scratch/large.ll" "$trace"
done
expect 2 'hippo: no file: trace 2' many "$program" "$trace" "$scratch/none.trace"
expect 2 'hippo: no file: trace' crash "$program" "$scratch/none.trace" 1
for command in run record; do
  expect 2 'hippo: no file: program' "$command" "$scratch/none.ll"
  expect 3 'hippo: read fault' "$command" "$scratch"
  expect 5 'hippo: program line 3: unsupported' "$command" "$scratch/float.ll"
done
expect 10 'cut' run "$scratch/loop.ll" --limit 1000
expect 10 'cut' run "$scratch/loop.ll" --limit 0
expect 11 'hippo: trace 2 entry 3: differs' many "$program" "$trace" "$scratch/other.trace"
expect 12 'hippo: no entry: 4 entries' crash "$program" "$trace" 5
expect 12 'hippo: no entry: 4 entries' crash "$program" "$trace" 0
expect 13 'hippo: pick 1: line' crash "$program" "$trace" 3 1:0
expect 13 'hippo: pick 1: range 0 to 1' crash "$program" "$trace" 3 0:2
expect 13 'hippo: pick 2: repeated' crash "$program" "$trace" 3 0:1 0:0

# says CODE LINE TEXT: what `run` answers to a program
says() {
  printf '%b' "$3" >"$scratch/said.ll"
  count "a program with '$2'" answers "$1" "$2" run "$scratch/said.ll"
}

# in_main CODE LINE TEXT: the same for a program with this `main` and a function of i64 and ptr
in_main() {
  says "$1" "$2" "@x = global i64 0
declare i64 @read_i64()
define i64 @f(i64 %n, ptr %p) {
entry:
  ret i64 %n
}
define i32 @main() {
entry:
$3
  ret i32 0
}"
}

says 5 'hippo: program line 2: syntax' '@x = global i64 0\n@y = constant = 0'
says 5 'hippo: program line 1: unsupported' '@x = external global i64'
says 5 'hippo: program line 1: range' '@x = global i8 256'
says 5 'hippo: program line 1: depth' "@x = global $(printf '[1 x %.0s' {1..33})i8"
says 5 'hippo: program: no main at program' ''
says 5 'hippo: program: duplicate at global 1' '@x = global i8 0\n@x = global i8 0'
says 5 'hippo: program: unknown at global 0' '@x = global ptr @y'
says 5 'hippo: program: bad global at global 0' '@x = global [2 x i8] [i8 1]'
says 5 'hippo: program: bad extern at extern 0' 'declare i32 @read_i64()'
says 5 'hippo: program: too large at program' '@x = global [67108864 x i8] zeroinitializer, section ".pm"
@y = global i8 0, section ".pm"'
in_main 5 'hippo: program: unknown at function 1 block 0 index 0' '  store i64 %n, ptr @x'
in_main 5 'hippo: program: mismatch at function 1 block 0 index 0' '  %n = call i32 @read_i64()'
in_main 5 'hippo: program: bad edge at function 1 block 0 end' '  br label %entry
next:'
in_main 5 'hippo: program: bad edge at function 1 block 1 phi 0' '  br label %next
next:
  %n = phi i64 [ 0, %next ]'
in_main 5 'hippo: program: unassigned at function 1 block 1 end' '  br label %next
next:
  br i1 %b, label %last, label %last
last:
  %b = icmp eq i64 0, 0'
in_main 9 'trap divzero' '  %n = udiv i64 1, 0'
in_main 9 'trap divoverflow' '  %n = sdiv i8 -128, -1'
in_main 9 'trap shift' '  %n = shl i16 1, 16'
in_main 9 'trap address' '  store i64 1, ptr null'
in_main 9 'trap misaligned' '  store i64 1, ptr getelementptr (i8, ptr @x, i64 1)'
in_main 9 'trap stack' '  br label %more
more:
  %a = alloca [4096 x i64]
  br label %more
last:'
in_main 9 'trap depth' '  %n = call i32 @main()'
in_main 9 'trap input' '  %n = call i64 @read_i64()'
in_main 9 'trap unreachable' '  unreachable
last:'

# fills WORD..: a device without room is a write fault
fills() {
  hippo "$@" >/dev/full 2>"$scratch/notes"
  [ $? -eq 4 ] && [ "$(cat "$scratch/notes")" = 'hippo: write fault' ]
}
for command in check repair rerun thin; do count "$command on a full device" fills "$command" "$program" "$trace"; done
count 'record on a full device' fills record "$program"
count 'demo on a full device' fills demo 1 8

# starves WORD..: with too little memory, the answer is out of memory, with nothing on standard output
starves() {
  (ulimit -v 40000 && hippo "$@") >"$scratch/out" 2>"$scratch/notes"
  [ $? -eq 7 ] && [ ! -s "$scratch/out" ] && [ "$(cat "$scratch/notes")" = 'hippo: out of memory' ]
}
if $is_whole; then count 'demo in little memory' starves demo 1 "$size"; fi

# repeats WORD..: a command writes the same twice
repeats() {
  hippo "$@" >"$scratch/first" && hippo "$@" >"$scratch/second" && cmp "$scratch/first" "$scratch/second"
}
count 'a large demo' repeats demo 1 "$size"
count 'a large demo leaves no report' [ "$(tail -n 1 "$scratch/first")" = 'after 0' ]

# fresh_clone FOLDER: copies what a clone has, and nothing that was built
fresh_clone() { mkdir "$1" && tar -c --exclude=./.git --exclude=out . | tar -x -C "$1"; }

# unproved WORD..: the answer of the fresh clone, without the line in which the launcher says which build answers
unproved() {
  local status
  "$scratch/clone/hippo" "$@" 2>"$scratch/notes_of_launcher"
  status=$?
  if ! sed -n 1p "$scratch/notes_of_launcher" | grep -q '^hippo: the program is not proved here yet; .*unproved build.* \./hippo --build '; then
    echo "no line of the launcher: $(head -n 1 "$scratch/notes_of_launcher")"
  fi >&2
  sed 1d "$scratch/notes_of_launcher" >&2
  return "$status"
}

# agrees WORD..: the fresh clone answers as the program does
agrees() {
  local status other
  hippo "$@" >"$scratch/out" 2>"$scratch/notes" </dev/null
  status=$?
  unproved "$@" >"$scratch/other.out" 2>"$scratch/other.notes" </dev/null
  other=$?
  [ $status -eq $other ] && cmp "$scratch/out" "$scratch/other.out" && cmp "$scratch/notes" "$scratch/other.notes"
}

# agrees_in_folder: the same in the folder of the files, with relative paths, and with one file twice
agrees_in_folder() {
  cd "${program%/*}" && agrees repair one_store.ll ../one_store/one_store.trace && agrees repair one_store.ll one_store.ll
}

# agrees_on_pipes: the same with files that are read from pipes
agrees_on_pipes() {
  repaired() { "$1" repair <(cat "$program") <(cat "$trace"); }
  repaired hippo >"$scratch/out" 2>/dev/null && repaired unproved >"$scratch/other.out" 2>/dev/null &&
    cmp "$scratch/out" "$scratch/other.out"
}

if $is_whole; then
  unset HIPPO_PROGRAM
  fresh_clone "$scratch/clone" || exit 2
  for words in "run $program" "record $program" "check $program $trace" "repair $program $trace" "rerun $program $trace" \
    "thin $program $trace" "many $program $trace $trace" "crash $program $trace 3" "demo 1 8" "" "repair $program" \
    "repair $scratch/none.ll $trace" "repair $PWD/$program $scratch/other.trace" "run $scratch/loop.ll --limit 1000"; do
    # shellcheck disable=SC2086 # the words of a command
    count "not proved: hippo $words" agrees $words
  done
  count 'not proved: relative paths' eval '(agrees_in_folder)'
  count 'not proved: pipes' agrees_on_pipes
  hippo() { unproved "$@"; }
  export scratch
  export -f hippo unproved
  page examples/one_store/README.md examples/one_store
fi
echo "$passed cases passed, $failed failed"
[ "$failed" -eq 0 ]
