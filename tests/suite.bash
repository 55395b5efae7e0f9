# What the scripts of this folder share: they count the cases that passed and that failed, and end with a line that tells both.
suite=$(basename "$0")
# Each start waits for the program that is proved.
export KDF9_PROVED=1
passed=0
failed=0
work=$(mktemp -d) || exit 1
trap 'rm -rf "$work"' EXIT

# One case passed.
pass() {
  passed=$((passed + 1))
}

# One case failed, and why.
fail() {
  echo "$suite: $1"
  failed=$((failed + 1))
}

# The last line; the status is 0 where there were cases and none failed.
tell() {
  echo "$suite: $passed passed, $failed failed"
  [ "$failed" -eq 0 ] && [ "$passed" -gt 0 ]
}
