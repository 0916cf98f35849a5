# shellcheck shell=bash disable=SC2154
# Sourced by ./stem and ./explain, which have set name to their own name and crate to their program's crate: runs the program, and builds
# it first where it is missing or older than a source.
set -uo pipefail
# A file that is opened below must not take the number of a descriptor that is closed.
for closed in input:0 output:1; do
    if [ ! -e "/proc/self/fd/${closed#*:}" ]; then
        echo "$name: standard ${closed%:*} is closed" >&2
        exit 1
    fi
done
[ -e /proc/self/fd/2 ] || exec 2>/dev/null
if [ $# -gt 0 ]; then
    echo "usage: ./$name < WORDS, one word a line" >&2
    exit 2
fi
cd "$(dirname "$(readlink -f "$0")")" || exit 1
program=crates/$crate/out/$crate

# The crates that the program rests on, lowest first, as crates.txt lists them.
crates() {
    awk -F '[: ]+' -v program="$crate" '!/^#/ { name[NR] = $1; on[NR] = $0 }
        END {
            need[program] = 1
            for (i = NR; i > 0; i--) if (name[i] in need) { n = split(on[i], d, /[: ]+/); for (k = 2; k <= n; k++) need[d[k]] = 1 }
            for (i = 1; i <= NR; i++) if (name[i] != "" && name[i] in need) print name[i]
        }' crates.txt
}

# Proves the crate in its folder; the program is built, and run on no input.
prove() {
    local command=lib
    [ "$1" != "$crate" ] || command=run
    (cd "crates/$1" && rt "$command" </dev/null)
}

build() {
    if ! command -v rt >/dev/null; then
        echo "$name: the program is missing or older than its source, and the Rattle toolchain that builds it is missing: put its command 'rt' on the PATH" >&2
        return 1
    fi
    local below at=0 all
    mapfile -t all < <(crates)
    for below in "${all[@]}"; do
        if [ ! -w "crates/$below" ] || { [ -e "crates/$below/out" ] && [ ! -w "crates/$below/out" ]; }; then
            echo "$name: the program is to be built, and there is no permission to write: what is proved goes into $PWD/crates/$below/out" >&2
            return 1
        fi
    done
    echo "$name: proving and building the program; from nothing this takes some minutes" >&2
    log=$(mktemp) || return 1
    trap 'rm -f "$log"' EXIT
    for below in "${all[@]}"; do
        at=$((at + 1))
        echo "$name: proving $below ($at of ${#all[@]})" >&2
        if ! prove "$below" >"$log" 2>&1; then
            cat "$log" >&2
            echo "$name: the program was not built" >&2
            return 1
        fi
    done
    if [ ! -x "$program" ]; then
        echo "$name: rt run in crates/$crate wrote no $program" >&2
        return 1
    fi
    touch "$program"
}

# The program is built where it is missing or older than a source.
if [ ! -x "$program" ] || [ -n "$(find crates/*/src -name '*.rt' -newer "$program" -print -quit)" ]; then
    (build) || exit 1
fi

# At a file-size limit a write fails and is named, where the signal would end the program with no word.
trap '' XFSZ
exec "$program"
