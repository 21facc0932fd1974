#!/usr/bin/env bash
# docs/BENCH.md: its programs are the files of examples/, word for word, which are built without a warning and run; the commands of the ice bath and of the
# codes are run; what they print is what the page shows. The page's table of refusals has the header's numbers and texts.
. "$(dirname "$0")/c/library.sh"

page=docs/BENCH.md

need_library
make -s -B -C examples CC='gcc -Werror' || fail "make -C examples"

# A block of the page that begins with a line of the language's name alone: ```c or ```make.
block() {
    awk -v begin="\`\`\`$1" '$0 == begin { on = 1; next } on && /^```$/ { exit } on' "$2"
}

# The program of a section is its first block of C, and is the file of examples/; what it prints is the indented block after the line that ends with "prints".
shown=0
program() {
    local section=$1 name=$out/$2 source=examples/$2.c
    awk -v section="## $section" '$0 == section { on = 1; next } /^## / { on = 0 } on' "$page" >"$name.section"
    block c "$name.section" >"$name.c"
    diff "$name.c" "$source" >"$name.diff" || fail "$page, $section, shows another text than $source ($name.diff)"
    awk '/prints$/ { on = 1; next } on && /^    / { print substr($0, 5); begun = 1; next } begun { exit }' "$name.section" >"$name.shown"
    [ -s "$name.shown" ] || fail "$page, $section: nothing that the program prints"
    "target/examples/$2" >"$name.printed" || fail "the program of $page, $section, ended with status $?"
    diff "$name.shown" "$name.printed" || fail "the program of $page, $section, prints what stands at > above"
    shown=$((shown + $(wc -l <"$name.shown")))
}
program 'A first program' first
program 'Compressed pictures' compressed
program 'Two buffers' two_buffers
block make "$page" | diff - examples/Makefile >"$out/Makefile.diff" || fail "$page shows another Makefile than examples/Makefile ($out/Makefile.diff)"
[ "$(ls examples)" = "$(printf '%s\n' Makefile compressed.c first.c two_buffers.c)" ] || fail "examples/ has a file that $page does not show"

# The commands of a section stand after a dollar sign, what they print under them; rt's own lines are not shown.
commands() {
    local section=$1 name=$out/$2 line
    awk -v section="## $section" '$0 == section { on = 1; next } /^## / { on = 0 } on && /^    / { print substr($0, 5) }' "$page" >"$name.shown"
    grep -q '^\$ ' "$name.shown" || fail "$page has no command under $section"
    : >"$name.printed"
    while IFS= read -r line; do
        case $line in
        '$ (cd crates/frame_printer && rt run < stdin > /dev/null)')
            echo "$line" >>"$name.printed"
            bash -c "${line#\$ }" >"$out/frame_printer.log" 2>&1 || fail "${line#\$ } ($out/frame_printer.log)"
            ;;
        '$ cmp -l samples/'* | '$ crates/frame_printer/out/frame_printer < samples/'*)
            echo "$line" >>"$name.printed"
            bash -c "${line#\$ }" >>"$name.printed"
            ;;
        '$ '*) fail "$page has a command that this test does not know: $line" ;;
        esac
    done <"$name.shown"
    diff "$name.shown" "$name.printed" || fail "the commands of $page, $section, print what stands at > above"
}
commands 'The ice bath' ice_bath
commands 'Codes in the data' codes

# The table of refusals: each row's number is the name's in the header, and its third column, without the marks for code, the header's text; the header has
# no text for other numbers.
awk -F ' *[|] *' '$0 == "## Refusals" { on = 1; next } /^## / { on = 0 } on && $2 ~ /^[0-9]+$/ { gsub("`", ""); print $2 "\t" $3 "\t" $4 }' "$page" >"$out/refusals.shown"
{
    echo '#include <stdio.h>'
    echo '#include <string.h>'
    echo '#include "dcmi.h"'
    echo 'int main(void)'
    echo '{'
    echo '    static const char none[] = "no refusal has this number";'
    echo '    unsigned texts = 0;'
    while IFS=$'\t' read -r number name text; do
        printf '    if (%s != %s || strcmp(dcmi_refusal_text(%s), "%s")) return puts("%s: " "%s"), 1;\n' "$name" "$number" "$number" "$text" "$name" "$text"
    done <"$out/refusals.shown"
    echo '    for (unsigned number = 1; number < 1000; number++) texts += strcmp(dcmi_refusal_text(number), none) != 0;'
    printf '    return texts == %s ? 0 : (printf("the header has %%u texts\\n", texts), 1);\n' "$(wc -l <"$out/refusals.shown")"
    echo '}'
} >"$out/refusals.c"
gcc $c11 "$out/refusals.c" -o "$out/refusals" || fail "compiling $out/refusals.c"
"$out/refusals" || fail "the table of refusals of $page and dcmi_refusal_text differ at the row above"

echo "docs/BENCH.md: the programs are those of examples/ and print the $shown lines that the page shows, the $(cat "$out/ice_bath.shown" "$out/codes.shown" | grep -c '^\$ ') commands what stands under them; $(wc -l <"$out/refusals.shown") refusals have the header's texts."
