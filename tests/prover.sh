# shellcheck shell=bash
# For tests to source: the prover itself, `$kit/bin/rattle`, and the words that rt gives it.
# Sets `top`, the repository; `kit`; and `room`, a folder that is gone at the end.
top=$(cd "$(dirname "${BASH_SOURCE[0]}")/.." && pwd)
kit=$(dirname "$(rt doc)")
room=$(mktemp -d)
trap 'rm -rf "$room"' EXIT

# Sets `built`, a folder with the libraries as rt ci builds them of the files that stand here: the one that BUILT names, or else a copy of the repository,
# in which rt ci takes what it has passed before. In a checkout it puts back what lay in out/ before, of whatever files that was.
build_libraries() {
    local part
    built=${BUILT:-$room/built}
    [ -z "${BUILT:-}" ] || return 0
    mkdir -p "$built/.git"
    cp "$top/crates.txt" "$built"
    for part in "$top"/crates/*/*; do
        case $part in */out | */must-fail) continue ;; esac
        mkdir -p "$built/crates/$(basename "$(dirname "$part")")"
        cp -R "$part" "$built/crates/$(basename "$(dirname "$part")")"
    done
    if ! (cd "$built" && rt ci >"$room/said" 2>&1); then
        cat "$room/said" >&2
        exit 1
    fi
}

# Sets `words`: those of a library crate.
words_of() { # CRATE
    local name folder
    words=(--crate-name "$1" src/lib.rt --extern "std=$kit/rlibs/std.rlib" -L "dependency=$kit/rlibs")
    for name in $(sed -nE "s/^$1( staticlib)?: *//p" "$top/crates.txt"); do
        words+=(--extern "$name=$built/crates/$name/out/rlib/$name.rlib")
    done
    for folder in "$built"/crates/*/out/rlib; do words+=(-L "dependency=$folder"); done
    words+=(--antt-project "$kit/rattle/logic/antt-project.json" --logic-built "$kit/logic_built" --links "$1=")
}
