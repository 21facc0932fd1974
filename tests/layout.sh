#!/usr/bin/env bash
# The sources are in the layout of `rt fmt`, no public function that a user may call has a `requires`, no proof has a hole, and an alias of a file of
# definitions means the same file everywhere.
. "$(dirname "$0")/c/library.sh"
bad=0
say() {
    echo "$*"
    bad=1
}

# `rt fmt` writes, so it is run on a copy, in each crate, and names there what it changes.
temporary_folder
cp crates.txt "$folder"
for crate in crates/*/; do
    mkdir -p "$folder/$crate"
    for part in src specs proofs; do
        [ ! -d "$crate$part" ] || cp -R "$crate$part" "$folder/$crate"
    done
    (cd "$folder/$crate" && rt fmt) >"$folder/fmt.log" 2>&1 || say "rt fmt failed in $crate: $(cat "$folder/fmt.log")"
    changed=$(sed -n 's/^rt: formatted //p' "$folder/fmt.log")
    [ -z "$changed" ] || say "rt fmt would change, in $crate: $changed"
done

# The public functions of a crate that have a `requires`: of lib.rt, and of the modules that it declares `pub mod` or passes on by `pub use`.
with_requires() {
    local source=crates/$1/src module
    for module in lib $(sed -n 's/^pub mod \([a-z_]*\);.*/\1/p; s/^pub use \([a-z_]*\)::.*/\1/p' "$source/lib.rt" | sort -u); do
        [ -f "$source/$module.rt" ] && awk '
            /^[ ]*pub (extern "C" )?fn / { open = 1; line = FILENAME ":" FNR ": " $0 }
            open && /^[ ]*requires/ { print line; open = 0 }
            /^[ ]*\{[ ]*$/ { open = 0 }
        ' "$source/$module.rt"
    done
}

# The crates for those of this repository alone, `inside` in crates.txt, may have such functions, and have one; what users may call has none.
inside=" $(sed -n 's/^# inside: //p' crates.txt | tr '\n' ' ')"
users=0
for lib in crates/*/src/lib.rt; do
    crate=${lib#crates/}
    crate=${crate%%/*}
    found=$(with_requires "$crate")
    case $inside in
    *" $crate "*) [ -n "$found" ] || say "crates.txt has $crate inside, but no public function of it has a requires" ;;
    *)
        users=$((users + 1))
        [ -z "$found" ] || say "a function that users may call has a requires: $found"
        ;;
    esac
done
for crate in $inside; do
    [ -f "crates/$crate/src/lib.rt" ] || say "crates.txt has $crate inside, and there is no such library"
done

holes=$(grep -rnE '(^|[^-A-Za-z])\?[[:space:]]*$' --include='*.antt' --exclude-dir=out crates)
[ -z "$holes" ] || say "a proof has a hole: $holes"

# Aliases, `use FILE as ALIAS`, of the code and the definitions.
aliases=$(cat crates/*/src/*.rt crates/*/specs/*.antt | sed -nE 's/^(ghost )?use (Rattle[^ {;]+) as ([a-z0-9_-]+);?$/\3 \2/p' | sort -u)
twice=$(cut -d ' ' -f 1 <<<"$aliases" | uniq -d)
[ -z "$twice" ] || say "an alias has two files: $twice"

echo "layout: $users crates for users, $(wc -w <<<"$inside") inside, $(find crates -path 'crates/*/out' -prune -o -name '*.antt' -print | wc -l) files of definitions and proofs"
exit $bad
