# What the scripts in bash share that time commands. They read this file before they move to another folder.

# under `set -e` a command that fails ends the script, so also in $(..) whose result is assigned
shopt -s inherit_errexit

here=$(cd "$(dirname "${BASH_SOURCE[0]}")" && pwd)
ultra=${ULTRA:-$here/../crates/ultra/out/ultra}
bench=$here/../crates/bench/out/bench
folder=$(mktemp -d)
trap 'rm -rf "$folder"' EXIT

fail() {
    echo "bench/$(basename "$0"): $1" >&2
    exit 1
}

# the path of a program that the caller names, as it is found from any folder
path_of() {
    local found
    found=$(type -P -- "$1") || fail "there is no program '$1'"
    realpath -s -- "$found"
}

# proves and builds the program `bench`
build_bench() {
    "$here/../tools/prove" --once bench >"$folder/log" 2>&1 || { tail -n 20 "$folder/log" >&2; exit 1; }
}

# ends the script where another program doesn't write what this one does: OTHER ARGUMENT..
compare() {
    local other=$1
    shift
    "$ultra" "$@" >"$folder/mine" || fail "$ultra ends with status $?: $*"
    "$other" "$@" >"$folder/theirs" || fail "$other ends with status $?: $*"
    [ -s "$folder/mine" ] && cmp -s "$folder/mine" "$folder/theirs" || fail "$other doesn't write what $ultra does: $*"
}

# seconds of the best of N runs: N COMMAND.. What the last run writes is in $folder/out.
best_of() {
    local count=$1 best='' start spent
    shift
    for _ in $(seq "$count"); do
        start=$(date +%s%N)
        "$@" >"$folder/out" || fail "this ends with status $?: $*"
        spent=$(($(date +%s%N) - start))
        if [ -z "$best" ] || [ "$spent" -lt "$best" ]; then best=$spent; fi
    done
    awk -v spent="$best" 'BEGIN { print spent / 1e9 }'
}
