# What the tests of tests/ have in common. Each begins with
#     . "$(dirname "$0")/c/library.sh"
# and is then at the top of the repository. A test writes only below target, and its exit status is 0 only if everything passed.
set -u
cd "$(dirname "${BASH_SOURCE[0]}")/../.." || exit 2

fail() {
    echo "FAILED: $*"
    exit 1
}

out=target/tests
mkdir -p "$out" || fail "cannot make $out"

# The flags of every C source, and those for C11; the library's tests with the model, beside the one with `main`.
strict='-Wall -Wextra -pedantic -Werror -Iinclude'
c11="-std=c11 -O2 -g $strict"
checked='tests/c/checked.c tests/c/frames.c tests/c/guard.c tests/c/inputs.c tests/c/model.c'
checked="$checked $(echo tests/c/reached*.c)"

# Makes $out/NAME from sources: compile NAME SOURCE...
compile() {
    local name=$1
    shift
    gcc $c11 "$@" -o "$out/$name" || fail "compiling tests/c/$name.c"
}

# Whether a file is there and newer than every source. What rt makes is in crates/*/out, and changes the time of crates/* too.
is_newest() {
    [ -f "$1" ] && [ ! crates.txt -nt "$1" ] && [ -z "$(find crates -mindepth 2 -path 'crates/*/out' -prune -o -newer "$1" -print -quit)" ]
}

# The library, of the crate dcmi; made, unless it is there and newer than every source. In the gate, where `rt ci` has just passed and no other command
# has built the libraries below, it is made over those that `rt ci` left (library_after_ci.py says why); else by `rt lib`.
library=crates/dcmi/out/libdcmi.a
need_library() {
    is_newest "$library" && return
    if [ -n "${RT_CI_PASSED:-}" ] && [ -z "$(find crates -path 'crates/*/out/rlib/stamp' -print -quit)" ]; then
        python3 tests/c/library_after_ci.py dcmi >target/dcmi.log 2>&1 && [ -f "$library" ] && return
        echo "tests/c/library_after_ci.py dcmi failed (target/dcmi_after_ci.log): rt lib is next"
        mv target/dcmi.log target/dcmi_after_ci.log
    fi
    (cd crates/dcmi && rt lib) >target/dcmi.log 2>&1 && [ -f "$library" ] || fail "rt lib in crates/dcmi (target/dcmi.log)"
}

# The frame printer, which `rt ci` and `rt run` leave; made, unless it is there and newer than every source.
printer=$PWD/crates/frame_printer/out/frame_printer
need_printer() {
    is_newest "$printer" && return
    (cd crates/frame_printer && rt run <stdin) >target/frame_printer.log 2>&1 && [ -x "$printer" ] ||
        fail "rt run in crates/frame_printer (target/frame_printer.log)"
}

# A folder of its own in $folder, which goes when the test ends.
temporary_folder() {
    folder=$(mktemp -d) || fail "mktemp"
    trap 'rm -rf "$folder"' EXIT
}
