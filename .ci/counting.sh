# shellcheck shell=bash
# For scripts that count cases in the variables `passed` and `failed`. LABEL begins the line of a case that fails.

# count LINE COMMAND..: counts a case, which passes if the command does
count() {
  local line=$1
  shift
  if "$@"; then
    passed=$((passed + 1))
  else
    failed=$((failed + 1))
    echo "$LABEL: $line"
  fi
}

# skip REASON: says what is left out; where CI is set, that is a case that fails
skip() {
  echo "$LABEL: skipped: $1"
  if [ -n "${CI-}" ]; then failed=$((failed + 1)); fi
}
