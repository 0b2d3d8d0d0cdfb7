# shellcheck shell=bash
# What a test has to show before it counts as passed. Sourced by tests/run and .ci/run; tests/gate/run plays both with
# tests that show less.

counts() { # counts STATUS LOG: "N M", how many passed and failed in a run that ended with STATUS and printed LOG
  # N and M are those of its last line, 'N passed, M failed'. One failure at the least counts a run whose last line is
  # another, in which nothing passed, or whose status is not 0
  local passed=0 failed=1
  if [[ $(tail -n 1 "$2" 2>/dev/null) =~ ^([0-9]+)' passed, '([0-9]+)' failed'$ ]]; then
    passed=$((10#${BASH_REMATCH[1]})) failed=$((10#${BASH_REMATCH[2]}))
  fi
  [ "$failed" -gt 0 ] || { [ "$1" -eq 0 ] && [ "$passed" -gt 0 ]; } || failed=1
  echo "$passed $failed"
}
