#!/usr/bin/env bash
# The tables of docs/SPEED.md: instructions and time a sample, of dcmi_run, dcmi_run_file, dcmi_sample and the model of tests/c; of the calls over two
# memories; then of dcmi_run_file and the frame printer by the length of the trace. Takes some minutes; no test.
set -eu
cd "$(dirname "$0")/.."
out=target/bench
mkdir -p "$out"
(cd crates/dcmi && rt lib) >"$out/dcmi.log" 2>&1
(cd crates/frame_printer && rt run <stdin) >"$out/frame_printer.log" 2>&1
printer=crates/frame_printer/out/frame_printer
gcc -std=c11 -O2 -Iinclude -Itests/c bench/bench.c tests/c/model.c crates/dcmi/out/libdcmi.a -o "$out/bench"
gcc -std=c11 -O2 -Iinclude -Itests/c tests/c/many_samples.c tests/c/child.c tests/c/printed.c tests/c/inputs.c tests/c/model.c -o "$out/many_samples"

# bench TIMES WHICH WIDTH CROP OVERRUN ROWS DEPTH WAITING [SAMPLES]
bench() {
    local times=$1 which=$2 width=$3 crop=$4 overrun=$5 rows=$6
    shift 6
    $under "$out/bench" "$which" "$width" "$crop" "$overrun" "$rows" "$times" "$@"
}
under=
callgrind='valgrind --tool=callgrind --callgrind-out-file=/dev/null'
collected() { sed -n 's/.*Collected : //p'; }
declare -A before # what making a trace takes, and writing its file: counted once
counted() { under=$callgrind bench 1 "$@" 2>&1 | collected; }
# Sets cost, instructions a sample: the run's, less those of making the trace, and of writing its file
count_cost() {
    local which=$1 none=none
    case $which in file | little) none=nofile ;; esac
    shift
    local samples with
    samples=$(bench 1 "$which" "$@" | sed 's/ samples.*//')
    with=$(counted "$which" "$@")
    [ -n "${before[$none $*]:-}" ] || before[$none $*]=$(counted "$none" "$@")
    cost=$(a_sample "$with" "${before[$none $*]}" "$samples")
}
# a_sample WITH WITHOUT SAMPLES
a_sample() { awk -v a="$1" -v b="$2" -v n="$3" 'BEGIN { printf "%.1f", (a - b) / n }'; }
took() { bench 20 "$@" | sed 's/.* held, //; s/ ns.*//'; }

echo '| bits | cropped | grants | rows | depth | words waiting | `dcmi_run`: instructions, ns | `dcmi_run_file` | model, C at -O2 |'
echo '|---|---|---|---|---|---|---|---|---|'
# row WIDTH CROP OVERRUN ROWS DEPTH WAITING [SAMPLES]; where no number of words waits, at most one does, or they overrun
row() {
    local bits=$1 crop=no grants='one in four' waiting='at most 1'
    [ "$1" = jpeg ] && bits='8, JPEG'
    [ "$1" = ess ] && bits='8, codes'
    [ "$2" = 1 ] && crop=yes
    [ "$3" = 1 ] && grants=none waiting=overrun
    [ "$6" != 0 ] && grants='one a word' waiting=$6
    local line="| $bits | $crop | $grants | $4 | $5 | $waiting |" which
    for which in lib file model; do
        count_cost $which "$@"
        line="$line $cost, $(took $which "$@") |"
    done
    echo "$line"
}
for width in 8 10 12 14; do row $width 0 0 490 4 0; done
row 14 1 0 490 4 0
row 14 0 1 490 4 0
row 14 0 0 49 4 0
row 14 0 0 1960 4 0
row 14 0 0 490 4 3
row 14 0 0 490 32 0
row 14 0 0 490 32 30
row jpeg 0 0 98 4 0 646800 # five pictures, each with a padded word at its end
row ess 0 0 490 4 0 # one picture with SAV and EAV in pairs
row ess 1 0 490 4 0
echo
sample() {
    count_cost one 14 0 0 490 "$1" "$3"
    echo "\`dcmi_sample\`, 14 bits, 490 rows, depth $1, $2 waiting: $cost instructions a call, $(took one 14 0 0 490 "$1" "$3") ns."
}
sample 4 'at most 1 word' 0
sample 4 '3 words' 3
sample 32 '30 words' 30

# two buffers in turn: five pictures of 98 rows, or two of 490, to A, to B and so on; the cropped window has two fifths of the rows
echo
echo '| bits | cropped | grants | rows | pictures | `dcmi_run_two`: instructions, ns | `dcmi_run` | model in mode two, C at -O2 |'
echo '|---|---|---|---|---|---|---|---|'
# row_two WIDTH CROP ROWS PICTURES
row_two() {
    local bits=$1 crop=no samples=$((1320 * $3 * $4)) which
    [ "$1" = jpeg ] && bits='8, JPEG'
    [ "$1" = ess ] && bits='8, codes'
    [ "$2" = 1 ] && crop=yes
    local line="| $bits | $crop | one in four | $3 | $4 |"
    for which in lib2 lib model2; do
        count_cost $which "$1" "$2" 0 "$3" 4 0 $samples
        line="$line $cost, $(took $which "$1" "$2" 0 "$3" 4 0 $samples) |"
    done
    echo "$line"
}
row_two 14 0 490 2
row_two 14 0 98 5
row_two 14 1 98 5
row_two 8 0 98 5
row_two jpeg 0 98 5
row_two ess 0 98 5
row_two ess 1 98 5

# one picture, whose last two words have no room; CAPTURE is 0 at the four after it
echo
echo '| bits | rows | pictures | words held | `dcmi_run_two`: instructions, ns | model in mode two, C at -O2 |'
echo '|---|---|---|---|---|---|'
# row_held WIDTH ROWS PICTURES
row_held() {
    local bits=$1 samples=$((1320 * $2 * $3)) which
    [ "$1" = ess ] && bits='8, codes'
    local line="| $bits | $2 | $3 | 2 |"
    for which in held2 modelheld2; do
        count_cost $which "$1" 0 0 "$2" 4 0 $samples
        line="$line $cost, $(took $which "$1" 0 0 "$2" 4 0 $samples) |"
    done
    echo "$line"
}
row_held 14 98 5
row_held ess 98 5
echo
count_cost one2 14 0 0 98 4 0 646800
echo "\`dcmi_sample_two\`, 14 bits, 98 rows, five pictures, depth 4, at most 1 word waiting: $cost instructions a call, $(took one2 14 0 0 98 4 0 646800) ns."

# by the length: pictures of 490 rows, 14 bits, one in four granted; the printer through a pipe, less what it takes for a file with the same write and no sample
echo
echo '| samples | `dcmi_run_file`, memory for all words | `dcmi_run_file`, memory of 16,384 bytes | frame printer, by parts |'
echo '|---|---|---|---|'
printed() { bench 1 trace 14 0 0 490 4 0 "$1" | $callgrind "$printer" 2>&1 >/dev/null | collected; }
nothing=$(printed 0)
for samples in 16385 646800 10000000; do
    line="| $samples |"
    for which in file little; do
        count_cost $which 14 0 0 490 4 0 $samples
        line="$line $cost |"
    done
    echo "$line $(a_sample "$(printed $samples)" "$nothing" $samples) |"
done
echo
"$out/many_samples" "$printer" 10000000
