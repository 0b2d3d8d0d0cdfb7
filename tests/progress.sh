# shellcheck shell=bash
# Signs of life: what a script is doing, how far it is, for how many seconds. Sourced, from the repository's root, by
# the scripts that prove or test for long. On a terminal one line of standard error is written over each second;
# elsewhere a line comes when it has changed, or after ten seconds. Standard output is left alone.

toolchain() { # rt is there; or says what is missing and where it comes from
  local kit=${RATTLE_HOME:-/opt/rattle}
  command -v rt >/dev/null 2>&1 && return
  PATH=$PATH:$kit/bin
  command -v rt >/dev/null 2>&1 && return
  {
    echo "rt is not there: it is the command of Rattle's kit, the toolchain that proves and builds this repository."
    echo "It was looked for on the PATH and in $kit/bin. README.md, \"On a fresh machine\", says which kit."
    echo "To run what was built without the toolchain, unpack a bundle: README.md, \"A bundle for a hall\"."
  } >&2
  return 1
}

installed() { # installed COMMAND PACKAGE..: a machine without the command installs the packages
  command -v "$1" >/dev/null 2>&1 && return
  echo "installing ${*:2}, for $1" >&2
  apt-get update -qq >&2 && apt-get install -y -qq "${@:2}" >&2
}

tell() { # tell LINE: in the place of the line before on a terminal
  if [ -t 2 ]; then printf '\r\033[K%s' "${1:0:$((${COLUMNS:-80} - 1))}" >&2; else printf '%s\n' "$1" >&2; fi
}

told_off() { # the line on a terminal goes
  [ ! -t 2 ] || printf '\r\033[K' >&2
}

watch() { # watch SHELL WHAT..: as long as that shell lives, tells what the function WHAT prints, and the seconds
  local shell=$1 began=$SECONDS line last='' at=-10
  shift
  sleep 2 >/dev/null 2>&1 # what is done by then needs no word
  while kill -0 "$shell" 2>/dev/null; do
    line=$("$@")
    if [ -t 2 ] || [ "$line" != "$last" ] || [ $((SECONDS - at)) -ge 10 ]; then
      tell "$line ($((SECONDS - began)) s)"
      last=$line at=$SECONDS
    fi
    sleep 1 >/dev/null 2>&1
  done
}

watched() { # watched WHAT COMMAND..: runs the command; meanwhile tells what WHAT, a function and its words, prints
  local watcher status
  # shellcheck disable=SC2086
  watch $$ $1 &
  watcher=$!
  shift
  "$@"
  status=$?
  kill "$watcher" 2>/dev/null
  wait "$watcher" 2>/dev/null
  told_off
  return $status
}

crates_of() { # crates_of NAME..: how many crates these are, with all that they use; all crates where none is named
  awk -v names="$*" '
    function visit(name,  used, n, k) {
      if (!(name in uses) || name in seen) return
      seen[name] = 1; count++
      n = split(uses[name], used, " ")
      for (k = 1; k <= n; k++) visit(used[k])
    }
    { sub(/#.*/, "") }
    /:/ { at = index($0, ":"); split(substr($0, 1, at - 1), words, " "); uses[words[1]] = substr($0, at + 1) }
    END {
      n = split(names, want, " ")
      for (k = 1; k <= n; k++) visit(want[k])
      if (n == 0) for (name in uses) visit(name)
      print count + 0
    }' crates.txt
}

names_of() { # the crates that crates.txt lists
  sed -nE 's/^([a-z0-9_]+)[^#:]*:.*/\1/p' crates.txt
}

at_work() { # the crates in whose folders a process works
  readlink /proc/[0-9]*/cwd 2>/dev/null | grep -F "$PWD/crates/" | sed 's|.*/||' | sort -u
}

how_far() { # how_far LOG CRATES EDITS: where rt is that prints into LOG
  local log=$1 crates=$2 edits=$3 told begun name now=()
  # rt ci says of each crate how it ended; rt all check prints what was said of it, under its name, until the summary
  told=$(sed '/^== summary/,$d' "$log" 2>/dev/null | sed -nE \
    's/^rt: ([a-z0-9_]+) (proved|NOT PROVED|is kept).*/\1/p; s/^== ([a-z0-9_]+)$/\1/p' | sort -u)
  begun=$(sed -nE 's/^rt: [a-z0-9_]+: trying its must-fail edits \(([0-9]+)\)$/\1/p' "$log" 2>/dev/null | awk '{ n += $1 } END { print n + 0 }')
  if [ "$(grep -c . <<<"$told")" -ge "$crates" ] && [ "$edits" -gt 0 ]; then
    echo "wrong edits: $begun of $edits begun"
  else
    for name in $(at_work); do # what has begun and is not told of yet
      grep -qx "$name" <<<"$told" || now+=("$name")
    done
    name=$(grep -c . <<<"$told")
    [ "$name" -lt "$crates" ] || name=$((crates - 1))
    echo "proving crate $((name + 1)) of $crates${now[*]:+: ${now[*]}}"
  fi
}

quietly() { # quietly LOG COMMAND..: what it prints goes to LOG
  "${@:2}" >"$1" 2>&1 </dev/null
}

side_by_side_checks() { # how many checks this machine holds at once, a processor and 3 GB of memory for each; or CHECKS
  local most
  [ -z "${CHECKS:-}" ] || { echo "$CHECKS"; return; }
  most=$(($(awk '/^MemAvailable/ { print $2 }' /proc/meminfo) / 3000000))
  [ "$most" -ge 1 ] || most=1
  [ "$most" -le "$(nproc)" ] || most=$(nproc)
  echo "$most"
}

proving() { # proving LOG: proves every crate that has changed; what rt prints is in LOG, which is shown where it fails
  local log=$1 status
  watched "how_far $log $(crates_of) 0" quietly "$log" rt all check --jobs "$(side_by_side_checks)"
  status=$?
  [ $status -eq 0 ] || cat "$log" >&2
  return $status
}

in_crate() { # in_crate NAME COMMAND..: in the crate's folder
  (cd "crates/$1" && "${@:2}")
}

building() { # building LOG VERB NAME..: proves the crates and all that they use, where changed, and builds them: rt VERB
  local log=$1 name status=0
  # side by side; what else is not proved does not matter, for rt VERB proves what is left, and says what is not
  watched "how_far $log $(crates_of) 0" quietly "$log" rt all check --jobs "$(side_by_side_checks)"
  for name in "${@:3}"; do
    watched "echo building $name" quietly "$log.$name" in_crate "$name" rt "$2" || { cat "$log" "$log.$name" >&2; status=1; }
  done
  return $status
}

newest() { # newest FILE SOURCE..: the file is there, and none of the sources is younger
  [ -e "$1" ] && [ -z "$(find "${@:2}" -newer "$1" -print -quit 2>/dev/null)" ]
}
