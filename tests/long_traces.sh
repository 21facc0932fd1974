#!/usr/bin/env bash
# W7, longer traces: the limits of both versions of trace file on the library, and the frame printer by parts, against the model of tests/c.
. "$(dirname "$0")/c/library.sh"

# Samples of the trace that is made while the printer reads it.
MANY=10000000

need_printer
need_library

compile long_traces tests/c/long_traces.c $checked "$library"
"$out/long_traces" || fail "the limits (above; one part: $out/long_traces PART)"

piped='tests/c/child.c tests/c/printed.c tests/c/inputs.c tests/c/model.c'
compile parts tests/c/parts.c $piped
compile many_samples tests/c/many_samples.c $piped
"$out/long_traces" picture "$out/picture.fgt" || fail "the library did not write the picture's file"
"$out/parts" "$printer" "$out/picture.fgt" || fail "the printer by parts (alone: $out/parts $printer $out/picture.fgt CASE)"
"$out/many_samples" "$printer" "$MANY" || fail "$MANY samples (alone: $out/many_samples $printer SAMPLES)"
