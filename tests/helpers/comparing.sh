# What the scripts that run the built program on real files share: a folder of their own, and comparisons that are counted.
# A script sources this file, and ends with `told`.
root=$(cd "$(dirname "${BASH_SOURCE[0]}")/../.." && pwd)
work=$(mktemp -d)
trap 'rm -rf "$work"' EXIT
cd "$work" || exit 1
export PYTHONPATH=$root/tests
passed=0
failed=0

# Counts one comparison: its name, what was wanted, what came.
compare() {
  if [ "$2" = "$3" ]; then
    passed=$((passed + 1))
  else
    failed=$((failed + 1))
    printf 'failed: %s\n  wanted: %s\n  came:   %s\n' "$1" "$2" "$3"
  fi
}

# expect NAME STATUS OUT ERR WORD..: the program on these words; OUT and ERR are texts without their last line feed.
expect() {
  local name=$1 status=$2 out=$3 err=$4
  shift 4
  "$root/chtab" "$@" >out.txt 2>err.txt
  compare "$name, status" "$status" "$?"
  compare "$name, standard output" "$out" "$(cat out.txt)"
  compare "$name, standard error" "$err" "$(cat err.txt)"
}

# expect_words NAME STATUS STREAM WORDS WORD..: the same, where the stream out or err has these words somewhere.
expect_words() {
  local name=$1 status=$2 stream=$3 words=$4
  shift 4
  "$root/chtab" "$@" >out.txt 2>err.txt
  compare "$name, status" "$status" "$?"
  compare "$name, words" "yes" "$(grep -qF -e "$words" "$stream.txt" && echo yes || cat "$stream.txt")"
}

# list_of NODE..: a list file of these nodes.
list_of() {
  printf 'p aux sp ss %d\n' "$#"
  for node in "$@"; do printf 's %d\n' "$node"; done
}

# told: the last line of a script, and its status.
told() {
  printf '%d passed, %d failed\n' "$passed" "$failed"
  [ "$failed" -eq 0 ]
}

"$root/chtab" --help >/dev/null || { echo "the program could not be built"; echo "0 passed, 1 failed"; exit 1; }
