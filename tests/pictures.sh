#!/usr/bin/env bash
# W4, compressed pictures: the JPEG file of tests/pictures through the library and through the frame printer; memory holds the file. Where djpeg is
# installed, it reads what memory holds.
. "$(dirname "$0")/c/library.sh"

picture=tests/pictures/small.jpg

need_printer
need_library

compile pictures tests/c/pictures.c tests/c/inputs.c "$library"
"$out/pictures" "$picture" "$out" || fail "the pictures (above; alone: $out/pictures $picture $out)"

for version in 1 2; do
    "$printer" <"$out/pictures_$version.fgt" >"$out/pictures_$version.printed" || fail "the printer on $out/pictures_$version.fgt"
    diff "$out/pictures_$version.shown" "$out/pictures_$version.printed" >"$out/pictures.diff" || fail "the printer on $out/pictures_$version.fgt ($out/pictures.diff)"
done
echo "The frame printer: both traces, $(wc -l <"$out/pictures_1.printed") and $(wc -l <"$out/pictures_2.printed") lines, the words of the pictures."

if command -v djpeg >/dev/null; then
    djpeg <"$picture" >"$out/pictures.pixels" || fail "djpeg on $picture"
    for number in 0 1 2 3 4; do
        djpeg <"$out/picture_$number.jpg" | cmp - "$out/pictures.pixels" || fail "djpeg on $out/picture_$number.jpg, which memory held"
    done
    echo "djpeg: reads the five pictures as memory held them, and finds the same pixels."
else
    echo "djpeg is not installed: reading the pictures with it was left out."
fi
