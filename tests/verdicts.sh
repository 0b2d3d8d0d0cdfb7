# shellcheck shell=bash
# The prover's verdict on each crate, kept in target/verdicts/NAME with the crate's stamp. Sourced, from the repository's
# root and after tests/progress.sh, by tests/run and dist.

declare -A stamps
identity=

stamp_of() { # stamp_of NAME: puts the crate's stamp into stamps[NAME]: the SHA-256 sum of the toolchain's identity, the
  # crate's line of crates.txt, its sources and the stamps of the crates that it uses
  local uses other
  [ -z "${stamps[$1]:-}" ] || return 0
  [ -n "$identity" ] || identity=$(rt version) || return 1
  uses=$(sed -nE "s/^$1( [^:#]*)?:([^#]*).*/\2/p" crates.txt)
  for other in $uses; do
    [ ! -d "crates/$other" ] || stamp_of "$other" || return 1
  done
  stamps[$1]=$({
    echo "$identity"
    grep -E "^$1[ :]" crates.txt
    (cd "crates/$1" && find src specs proofs -type f 2>/dev/null | LC_ALL=C sort | xargs -d '\n' sha256sum)
    for other in $uses; do echo "${stamps[$other]:-$other}"; done
  } | sha256sum | cut -c 1-64)
}

keep_verdict() { # keep_verdict NAME LOG: of what a check of the crate printed; nothing where the log has no verdict
  local said
  said=$(grep -E '^(axioms|logic=proved) ?' "$2") && grep -q '^logic=proved ' <<<"$said" || return 1
  stamp_of "$1" && mkdir -p target/verdicts &&
    printf '%s\nstamp %s\n' "$said" "${stamps[$1]}" >"target/verdicts/$1.new" && mv "target/verdicts/$1.new" "target/verdicts/$1"
}

keep_verdicts() { # keep_verdicts LOG: of each crate that rt all check proved as it printed LOG
  local name part
  part=$(mktemp) || return 1
  for name in $(sed '/^== summary/,$d' "$1" | sed -nE 's/^== ([a-z0-9_]+)$/\1/p'); do
    sed -n "/^== $name\$/,/^== /p" "$1" >"$part"
    keep_verdict "$name" "$part"
  done
  rm -f "$part"
  return 0
}

verdict_of() { # verdict_of NAME: prints it, with the stamp; where none is kept of the crate as it is, it is checked again
  stamp_of "$1" || return 1
  if ! grep -qx "stamp ${stamps[$1]}" "target/verdicts/$1" 2>/dev/null; then
    mkdir -p target/verdicts && quietly "target/verdicts/$1.log" in_crate "$1" rt check &&
      keep_verdict "$1" "target/verdicts/$1.log" || { cat "target/verdicts/$1.log" >&2; return 1; }
  fi
  cat "target/verdicts/$1"
}
