#!/usr/bin/env bash
# The gate refuses a crate that is not listed and a must-fail edit that is bad, and needs the line 'rt: ok' and the status of rt ci; its last two lines
# are its seconds and its count: tried on copies with an `rt` that answers in the forms of today's.
. "$(dirname "$0")/c/library.sh"

temporary_folder
copy=$folder
mkdir -p "$copy/.ci" "$copy/bin" "$copy/crates/listed" "$copy/crates/to_c"
cp .ci/run "$copy/.ci/run"
printf '%s\n' 'listed:' 'to_c staticlib: listed' >"$copy/crates.txt"

# The `rt` prints the lines of a run and those that it is given; its status is the one that it is given.
cat >"$copy/bin/rt" <<'END'
#!/bin/sh
[ "$*" = ci ] || { echo "rt: called with other words than ci: $*"; exit 2; }
echo "== listed"
echo "rt: listed proved"
cat "$(dirname "$0")/said"
exit "$(cat "$(dirname "$0")/status")"
END
chmod +x "$copy/bin/rt"

# gate STATUS WANTED_STATUS LAST_LINE TEXT LINE..: rt prints the lines and ends with the status; then the gate ends so, and says the text.
gate() {
    local rt_status=$1 wanted=$2 last=$3 text=$4 said status
    shift 4
    printf '%s\n' "$@" >"$copy/bin/said"
    echo "$rt_status" >"$copy/bin/status"
    said=$(PATH="$copy/bin:$PATH" bash "$copy/.ci/run")
    status=$?
    if [ "$status" -eq "$wanted" ] && grep -qF -- "$text" <<<"$said" &&
        tail -n 2 <<<"$said" | head -n 1 | grep -Eqx 'seconds: rt ci [0-9]+, tests [0-9]+' &&
        [ "$(tail -n 1 <<<"$said")" = "$last" ]; then
        return
    fi
    echo "$said"
    fail "the gate ended with status $status, not $wanted, or without '$text', or not with '$last', where rt printed: $*"
}

edits='rt: ok; handles allowed: none; must-fail edits: 1 refused'
all='every proof and must-fail edit was done in this run'
gate 0 0 '5 passed, 0 failed' 'rt: must-fail listed/edit.edit' 'rt: must-fail listed/edit.edit: refused, as it must be' "$edits; $all" '3 passed, 0 failed'
gate 0 0 '4 passed, 0 failed' 'rt: ok' "rt: ok; handles allowed: none; $all" '2 passed, 0 failed'
gate 0 1 '5 passed, 1 failed' '2 must-fail edits are bad' "$edits, 2 bad; $all" '3 passed, 0 failed'
gate 0 1 '5 passed, 1 failed' '12 must-fail edits are bad' "$edits, 1 of them only by a limit, 12 bad; $all" '3 passed, 0 failed'
gate 1 1 '3 passed, 1 failed' 'rt: FAILED: to_c' 'rt: FAILED: to_c' '1 passed, 1 failed'
gate 2 1 '2 passed, 1 failed' 'rt: no' 'rt: no' '0 passed, 1 failed'
gate 1 1 '5 passed, 1 failed' 'rt ci ended with status 1' "$edits; $all" '3 passed, 0 failed'
gate 0 1 '5 passed, 1 failed' "without its line 'rt: ok'" 'rt: nothing' '3 passed, 0 failed'
gate 0 1 '2 passed, 1 failed' 'no count' 'rt: ok' '3 passed, 0 failed (listed and the crates below alone: not the gate)'
gate 3 1 '2 passed, 1 failed' 'no count' 'rt: stopped'

mkdir "$copy/crates/hidden"
gate 0 1 '5 passed, 1 failed' 'crates/hidden is not listed' "$edits; $all" '3 passed, 0 failed'
rmdir "$copy/crates/hidden"
mkdir "$copy/crates/staticlib"
gate 0 1 '5 passed, 1 failed' 'crates/staticlib is not listed' "$edits; $all" '3 passed, 0 failed'
echo "unlisted crate, bad must-fail edit, no line 'rt: ok', another status, another count: the gate says so and fails"
