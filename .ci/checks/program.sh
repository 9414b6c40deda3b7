#!/usr/bin/env bash
# Runs the built program on bad words, on bad input and at its limits, and compares status and texts.
set -u
cd "$(dirname "$0")/../.." || exit 1
program=crates/gds_program/out/gds_program
if [ ! -x "$program" ]; then
  echo "program check: all of it is skipped, since the program isn't built"
  exit 0
fi
passed=0
failed=0
work=$(mktemp -d) || exit 1
trap 'rm -rf "$work"' EXIT

# expect NAME STATUS OUTPUT ERROR_TEXT WORDS.. : runs the program on standard input
expect() {
  local name=$1 status=$2 output=$3 error=$4
  shift 4
  "$program" "$@" >"$work/out" 2>"$work/err"
  local got=$?
  printf '%b' "$output" >"$work/want_out"
  printf '%b' "$error" >"$work/want_err"
  if [ "$got" = "$status" ] && cmp -s "$work/out" "$work/want_out" && cmp -s "$work/err" "$work/want_err"; then
    passed=$((passed + 1))
  else
    failed=$((failed + 1))
    echo "program check: $name: status $got, wanted $status; standard error: $(head -c 200 "$work/err")"
  fi
}

expect "no words" 2 '' 'gds: bad words\n' </dev/null
expect "once alone" 2 '' 'gds: bad words\n' once </dev/null
expect "another algorithm" 2 '' 'gds: bad words\n' once wcc </dev/null
expect "a word too many" 2 '' 'gds: bad words\n' once degree x </dev/null
expect "a word that isn't UTF-8" 2 '' 'gds: bad words\n' once $'\xff' </dev/null
expect "six nodes" 0 '0 2\n1 1\n2 1\n3 2\n4 0\n5 0\n' '' once degree <examples/six-nodes.txt
expect "no nodes" 0 '' '' once degree <<<'nodes 0'
expect "empty input" 3 '' 'gds: bad input at line 1\n' once degree </dev/null
printf 'nodes 2\nrel 0 2\n' >"$work/end"
expect "an end out of range" 3 '' 'gds: bad input at line 2\n' once degree <"$work/end"
expect "a directory as input" 4 '' 'gds: read fault\n' once degree <.
if [ -w /dev/full ]; then
  "$program" once degree <examples/six-nodes.txt >/dev/full 2>"$work/err"
  if [ $? = 5 ] && [ "$(cat "$work/err")" = 'gds: write fault' ]; then passed=$((passed + 1)); else
    failed=$((failed + 1))
    echo "program check: a full disk"
  fi
else
  echo "program check: a full disk is skipped, since /dev/full can't be written"
fi

# As many relationships as there may be, and one more.
if command -v yes >/dev/null 2>&1; then
  {
    echo 'nodes 1'
    yes 'rel 0 0' | head -n 16777216
  } >"$work/most"
  expect "as many relationships as there may be" 0 '0 16777216\n' '' once degree <"$work/most"
  echo 'rel 0 0' >>"$work/most"
  expect "one relationship too many" 3 '' 'gds: bad input at line 16777218\n' once degree <"$work/most"
else
  echo "program check: the limits are skipped, since there is no command yes"
fi

echo "program check: $passed passed, $failed failed"
[ "$failed" = 0 ]
