# shellcheck shell=bash
# For the tests of the compiled code to source: the crate `speed` is built as a static library for C, x86-64. CC names another compiler than cc.
# Sets `top`, the repository, and `room`, a folder that is gone at the end.
# shellcheck source=tests/prover.sh
. "$(dirname "${BASH_SOURCE[0]}")/prover.sh"

# Builds the library, which rt ci proves and does not build, unless it is there; and with it the program tests/NAME.c in the room.
build() { # NAME
    local library
    build_libraries
    library=$built/crates/speed/out/libspeed.a
    if [ ! -f "$library" ]; then
        words_of speed
        words+=(--crate-type staticlib --toolchain "$kit/toolchain" --backend llvm)
        if ! (cd "$top/crates/speed" && "$kit/bin/rattle" build "${words[@]}" -o "$library" >"$room/said" 2>&1); then
            cat "$room/said" >&2
            exit 1
        fi
    fi
    "${CC:-cc}" -std=c11 -Wall -Wextra -Werror -O3 -static -o "$room/$1" "$top/tests/$1.c" "$library"
}
