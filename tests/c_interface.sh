#!/usr/bin/env bash
# The C interface: the header as C11 and C++17, then the library against the model of tests/c, with guard pages and under valgrind.
. "$(dirname "$0")/c/library.sh"

# Seeds of the short run under valgrind, and how many calls of each; 9 has JPEG frames, 10 codes in the data, 11 two buffers, 7 and 30 reach files of
# version 2. Two run at a time.
SHORT_SEEDS="0 1 2 4 7 8 9 10 11 30"
SHORT_CALLS=12000

need_library

gcc -std=c11 $strict tests/c/header.c "$library" -o "$out/header_c" || fail "the header as C11"
g++ -std=c++17 $strict tests/c/header.cc "$library" -o "$out/header_cc" || fail "the header as C++17"
"$out/header_c" || fail "header.c: check $?"
"$out/header_cc" || fail "header.cc: check $?"
echo "The header as C11 and as C++17: compiled without warnings, each call made, null pointers beside a length of 0."

compile compare tests/c/compare.c tests/c/kinds*.c tests/c/paper*.c $checked "$library"
"$out/compare" >"$out/compare.out"
status=$?
cat "$out/compare.out"
[ "$status" -eq 0 ] || fail "the comparison (above; single seeds: $out/compare SEED)"

# docs/INSPECTOR.md shows two lines of the comparison; they are of the whole of it.
if ! grep -q 'was left out' "$out/compare.out"; then
    stale=0
    while read -r line; do
        grep -qxF "    $line" docs/INSPECTOR.md && continue
        echo "docs/INSPECTOR.md does not show this line, indented by four: $line"
        stale=1
    done < <(grep -E '^  in all |^[0-9]+ seeds, ' "$out/compare.out")
    [ "$stale" -eq 0 ] || fail "docs/INSPECTOR.md shows other lines of the comparison than those printed"
fi

if command -v valgrind >/dev/null; then
    printf '%s\n' $SHORT_SEEDS | xargs -P 2 -I SEED valgrind --error-exitcode=1 -q "$out/compare" SEED "$SHORT_CALLS" || fail "valgrind, a seed above"
    echo "Under valgrind: seeds $SHORT_SEEDS, at most $SHORT_CALLS calls each, no error."
else
    echo "valgrind is not installed: the run under it was left out."
fi
echo "The C interface passed."
