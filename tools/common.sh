# common.sh: what the scripts of this repository do alike. It is sourced, not run.
# A script's help is the remark at its head.
root=$(cd "$(dirname "${BASH_SOURCE[0]}")/.." && pwd)

say() { printf '%s\n' "$*" >&2; }

fail() { say "${0##*/}: $*"; exit 1; }

help() { sed -n '2,/^[^#]/s/^# \{0,1\}//p' "$0"; exit 0; }

# SEED and COUNT of a comparison: decimal, COUNT above 0.
are_numbers() { [[ $1 =~ ^[0-9]{1,18}$ && $2 =~ ^[1-9][0-9]{0,17}$ ]]; }

# What a script starts has a process group of its own, and ends with the script, however that ends.
group=
stop() {
  trap - INT TERM HUP EXIT
  if [ -n "$group" ]; then
    kill -TERM -- "-$group" 2> /dev/null || true
    wait "$group" 2> /dev/null || true
  fi
  clean
  exit "$1"
}
clean() { :; }
trap 'stop $?' EXIT
trap 'say "${0##*/}: interrupted; nothing is left running"; stop 130' INT HUP
trap 'stop 143' TERM

# Runs a command or a function of the script and gives back what it gives back.
owned() {
  local ended=0
  set -m
  "$@" < /dev/null &
  group=$!
  set +m
  wait "$group" || ended=$?
  group=
  return "$ended"
}

need_rt() {
  command -v rt > /dev/null || fail "rt, the command of the Rattle kit, is not on the PATH (README.md, 'The kit')"
}

# The static library whose archive is libNAME.a: NAME_c, over the library NAME, or NAME itself.
static_crate() {
  local crate
  for crate in "$1_c" "$1"; do
    if grep -qE "^$crate +staticlib\\b" "$root/crates.txt"; then echo "$crate"; return; fi
  done
  fail "crates.txt has no static library $1_c or $1"
}

# A crate and the crates that it rests on, one to a line.
crates_of() {
  awk -v wanted="$*" '
    { sub(/#.*/, ""); i = index($0, ":"); if (i) { name = substr($0, 1, i - 1); sub(/^ +/, "", name); sub(/ .*/, "", name); rests[name] = substr($0, i + 1) } }
    function visit(name,    k, count, names) {
      if (!(name in rests) || name in seen) return
      seen[name] = 1
      count = split(rests[name], names, " ")
      for (k = 1; k <= count; k++) visit(names[k])
      print name
    }
    END { count = split(wanted, names, " "); for (k = 1; k <= count; k++) visit(names[k]) }' "$root/crates.txt"
}

# What a proved crate depends on, as one sum: the kit, and every file of the crate and of those below it.
sum_of() {
  {
    rt version 2> /dev/null || cat "$root/kit-version"
    (cd "$root" && cat crates.txt && for name in $(crates_of "$1"); do
      for part in src specs proofs; do [ ! -d "crates/$name/$part" ] || find "crates/$name/$part" -type f; done
    done | LC_ALL=C sort | xargs -d '\n' sha256sum)
  } | sha256sum | cut -d ' ' -f 1
}
