#!/usr/bin/env bash
# The gate itself, tools/test, over a stand-in for rt and for the suites: its last line is rt's verdict exactly where rt counts every edit
# as refused and every suite passed and ran a test, and a fault before that is one failure.
set -euo pipefail
cd "$(dirname "$0")/.."
work=$(mktemp -d)
trap 'rm -rf "$work"' EXIT
suites=$(tools/test --list)
ran=0

# fresh: a repository in which every suite passes, and an rt that proves all
fresh() {
  rm -rf "$work/repository"
  mkdir -p "$work"/repository/{tools,tests,bin,crates/one/must-fail,crates/two}
  touch "$work"/repository/crates/one/must-fail/{a,b}.edit
  cp tools/test "$work/repository/tools/test"
  for stub in refusals.py packages build; do
    printf '#!/bin/sh\n' > "$work/repository/tools/$stub"
    chmod +x "$work/repository/tools/$stub"
  done
  printf '# two crates\n\none: # the lower\ntwo staticlib: one\n' > "$work/repository/crates.txt"
  for suite in $suites; do
    echo "echo '$suite: 1 tests passed'" > "$work/repository/tests/$suite.sh"
  done
  cat > "$work/repository/bin/rt" << 'RT'
#!/usr/bin/env bash
case $* in
  ci)
    echo "rt: one proved"
    echo "rt: ok; handles allowed: none; must-fail edits: 2 refused; every proof and must-fail edit was done in this run"
    echo "7 passed, 0 failed"
    ;;
esac
RT
  chmod +x "$work/repository/bin/rt"
}

# expect STATUS LINE WHAT: the gate ends so
expect() {
  local got=0 last
  last=$(cd "$work/repository" && PATH="$PWD/bin:$PATH" tools/test 2> "$work/errors" | tail -n 1) || got=$?
  if [ "$got" != "$1" ] || [ "$last" != "$2" ]; then
    echo "error: $3: the gate ends with status $got and '$last', not $1 and '$2'" >&2
    exit 1
  fi
  ran=$((ran + 1))
}

fresh
expect 0 "7 passed, 0 failed" "all suites pass"
for suite in $suites; do
  grep -q "tests/$suite.sh passed" "$work/errors" || { echo "error: standard error does not tell that $suite is done" >&2; exit 1; }
done
for suite in $suites; do
  fresh
  echo "exit 1" > "$work/repository/tests/$suite.sh"
  expect 1 "7 passed, 1 failed" "$suite fails"
  fresh
  echo "echo '$suite: 0 tests passed'" > "$work/repository/tests/$suite.sh"
  expect 1 "7 passed, 1 failed" "$suite runs no test"
  fresh
  echo "" > "$work/repository/tests/$suite.sh"
  expect 1 "7 passed, 1 failed" "$suite says nothing"
  fresh
  rm "$work/repository/tests/$suite.sh"
  expect 1 "0 passed, 1 failed" "$suite is missing"
done
# what is left out passes only where a package is missing
first=${suites%%$'\n'*}
fresh
echo "echo 'SKIPPED: a browser'; echo '$first: 1 tests passed'" > "$work/repository/tests/$first.sh"
expect 1 "7 passed, 1 failed" "$first leaves something out"
fresh
echo "echo 'SKIPPED: a browser'; echo '$first: 1 tests passed'" > "$work/repository/tests/$first.sh"
echo "exit 1" >> "$work/repository/tools/packages"
expect 0 "7 passed, 0 failed" "$first leaves something out, and its package is missing"
fresh
for suite in $suites; do echo "exit 1" > "$work/repository/tests/$suite.sh"; done
expect 1 "7 passed, $(wc -w <<< "$suites") failed" "every suite fails"
fresh
touch "$work/repository/tests/another.sh"
expect 1 "0 passed, 1 failed" "a suite is not listed"
fresh
mkdir "$work/repository/crates/three"
expect 1 "0 passed, 1 failed" "a crate is not listed"
fresh
echo "exit 1" >> "$work/repository/tools/refusals.py"
expect 1 "0 passed, 1 failed" "an edit does not fit"
# altered OLD NEW: rt says something else
altered() {
  fresh
  sed -i "s/$1/$2/" "$work/repository/bin/rt"
  ! (cd "$work/repository" && bin/rt ci | cmp -s - <(fresh_rt)) || { echo "error: '$1' does not stand in what rt says" >&2; exit 1; }
}
fresh
fresh_said=$("$work/repository/bin/rt" ci)
fresh_rt() { printf '%s\n' "$fresh_said"; }
altered '"7 passed, 0 failed"' '"6 passed, 1 failed"; exit 1'
expect 1 "6 passed, 1 failed" "rt refuses"
altered '"7 passed, 0 failed"' '"6 passed, 1 failed (a word)"; exit 1'
expect 1 "6 passed, 1 failed" "rt refuses, and says more behind it"
altered '"7 passed, 0 failed"' '"6 passed, 1 failed"'
expect 1 "6 passed, 1 failed" "rt refuses with status 0"
altered 'passed, 0 failed"' 'passed, 0 failed (a word)"'
expect 0 "7 passed, 0 failed" "rt passes, and says more behind it"
altered 'passed, 0 failed"' 'passed, 0 failed (one and the crates below alone: not the gate)"'
expect 1 "0 passed, 1 failed" "rt passes some crates alone"
altered '"7 passed, 0 failed"' '"0 passed, 0 failed"'
expect 1 "0 passed, 1 failed" "rt proves nothing"
altered '"rt: ok; ' '"rt: done; '
expect 1 "0 passed, 1 failed" "rt has no line 'rt: ok'"
altered '"rt: one proved"' '"rt: ok; must-fail edits: 2 refused"'
expect 1 "0 passed, 1 failed" "rt has two lines 'rt: ok'"
altered '2 refused' '1 refused, 1 bad'
expect 1 "0 passed, 1 failed" "an edit is bad"
altered '2 refused' '2 refused, 1 bad'
expect 1 "0 passed, 1 failed" "an edit is bad that is not counted"
altered '2 refused' '2 refused, 1 of them only by a limit, 12 bad'
expect 1 "0 passed, 1 failed" "twelve edits are bad"
altered '2 refused' '2 refused, 0 bad'
expect 0 "7 passed, 0 failed" "no edit is bad"
altered '2 refused' '1 refused'
expect 1 "0 passed, 1 failed" "an edit is not counted"
altered ' must-fail edits: 2 refused;' ''
expect 1 "0 passed, 1 failed" "no edit is counted"
altered '"7 passed, 0 failed"' '"7 passed, 0 failed"; exit 2'
expect 1 "0 passed, 1 failed" "rt breaks"
altered 'echo "7 passed, 0 failed"' ':'
expect 1 "0 passed, 1 failed" "rt gives no verdict"
# by its names alone `rt ci` is no gate
altered '  ci)' '  "ci one two")'
expect 1 "0 passed, 1 failed" "rt is asked for all crates"
for made in program library; do
  fresh
  echo "[ \$2 != $made ]" >> "$work/repository/tools/build"
  expect 1 "0 passed, 1 failed" "the $made is not built"
done
echo "gate: $ran tests passed"
