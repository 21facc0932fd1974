#!/usr/bin/env bash
# The frame printer, on the samples of the repository and on made files, against what the paper prints and what the model of tests/c says.
. "$(dirname "$0")/c/library.sh"

need_printer

# The samples: the last line is the last landed word; in ITU 656's own order none lands, and the last line has the flags, ERR alone.
for sample in trace_t:091B0AAB ice_bath_12_bits:0AAB0AAB ice_bath_10_bits:02AB02AB codes_in_pairs:38803780 'itu_656_order:flags 04'; do
    name=${sample%:*}
    last=$("$printer" <"samples/$name.fgt" | tail -n 1)
    [ "$last" = "${sample#*:}" ] || fail "samples/$name.fgt printed $last"
done
cmp -s samples/trace_t.fgt crates/frame_printer/stdin || fail "samples/trace_t.fgt is not the paper's file"
echo "The frame printer: the ice bath reads 2731 at twelve bits and 683 at ten; two lines with codes in pairs land, and in the order of ITU 656 none."

compile printer tests/c/printer.c tests/c/printed.c tests/c/inputs.c tests/c/model.c
"$out/printer" "$printer" "$out" || fail "the comparison (alone: $out/printer $printer $out CASE)"
