# shellcheck shell=bash
# Sourced by compare/run, compare/fuzz, compare/places, compare/story and bench/run.

# The library to link: the given path, or else one built from this repository.
# library_path GIVEN ROOT
library_path() {
    local given=$1 root=$2
    if [ -n "$given" ]; then
        [ -f "$given" ] || { echo "no library '$given'" >&2; return 2; }
        realpath "$given"
        return
    fi
    (cd "$root" && ./build-library) >&2 || { echo "./build-library failed; a library that is there already can be given by --library PATH" >&2; return 2; }
    local built=$root/crates/arabic_stemmer/out/libarabic_stemmer.a
    [ -f "$built" ] || { echo "no crates/arabic_stemmer/out/libarabic_stemmer.a after the build" >&2; return 2; }
    realpath "$built"
}

# needs TOOL WHY
needs() {
    command -v "$1" >/dev/null || { echo "$1 is not installed: $2" >&2; exit 2; }
}

# number OPTION VALUE
number() {
    [[ $2 =~ ^[0-9]+$ ]] || { echo "$1 takes a number, not '$2'" >&2; exit 2; }
}
