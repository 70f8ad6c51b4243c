# What the parts of the end-to-end tests share: it is sourced at the beginning of each, and its `end` is each one's last line.
set -u
program=$PWD/crates/eoscheck/out/eoscheck
segments=tests/segments
passed=0
failed=0
scratch=$(mktemp -d)
# tests/messages.py reads folders in it as another user
chmod 755 "$scratch"
trap 'rm -rf "$scratch"' EXIT
: > "$scratch/nothing"

ok() { passed=$((passed + 1)); }
bad() { failed=$((failed + 1)); echo "FAILED: $1"; }
end() { echo "$passed passed, $failed failed"; [ $failed = 0 ]; }

# run WORDS: the program, on $input or on nothing; its status, and what it prints in out and err
run() {
  "$program" "$@" > "$scratch/out" 2> "$scratch/err" < "${input:-/dev/null}"
  status=$?
}

# same NAME STATUS OUTPUT ERROR: compares the last run with these
same() {
  if [ "$status" != "$2" ]; then bad "$1: status $status, not $2"
  elif ! cmp -s "$scratch/out" "$3"; then bad "$1: another output"; diff "$scratch/out" "$3" | head -5
  elif ! cmp -s "$scratch/err" "$4"; then bad "$1: another message"; diff "$scratch/err" "$4" | head -5
  else ok; fi
}

# only_first: keeps the first line of the last run's message; tests/messages.py has the second ones
only_first() { head -n 1 "$scratch/err" > "$scratch/first"; mv "$scratch/first" "$scratch/err"; }

# passes NAME COMMAND ..: one test, by the command's status
passes() {
  local name=$1
  shift
  if TMPDIR=$scratch "$@" > "$scratch/out" 2>&1; then ok
  else bad "$name"; tail -n 20 "$scratch/out"; fi
}

# sees_all NAME COMMAND ..: the same of a command that says which cases were never seen
sees_all() {
  local name=$1
  shift
  if TMPDIR=$scratch "$@" > "$scratch/out" 2>&1 && ! grep -q 'never seen' "$scratch/out"; then ok
  else bad "$name"; tail -n 4 "$scratch/out"; fi
}

# counted NAME COMMAND ..: as many tests as the command's last line says
counted() {
  local name=$1 counts
  shift
  TMPDIR=$scratch "$@" > "$scratch/out" 2>&1
  grep -v ' passed, ' "$scratch/out" | grep .
  counts=$(tail -n 1 "$scratch/out" | sed -nE 's/^([0-9]+) passed, ([0-9]+) failed$/\1 \2/p')
  if [ -n "$counts" ]; then passed=$((passed + ${counts% *})); failed=$((failed + ${counts#* }))
  else bad "$name"; tail -n 3 "$scratch/out"; fi
}

# preloaded NAME: builds tests/NAME.c to a library that a run can load first
preloaded() { cc -shared -fPIC -O1 -o "$scratch/$1.so" "tests/$1.c" -ldl || bad "no C compiler for tests/$1.c"; }
