#!/usr/bin/env bash
# The pages and the tree: every name in the tables of docs/DEVELOPER.md exists where the table says, every function that it names with its crate, and every
# must-fail edit stands in its table under its crate, every crate in the table of README.md; the files that pages name and the edits of docs/WRONG.md
# are there; no line of a page is longer than 180 characters.
. "$(dirname "$0")/c/library.sh"
page=docs/DEVELOPER.md
names=$out/names

# What there is, a line each: crate C; definition C FILE NAME; law C NAME; function C NAME; proof C NAME, of a file or a folder; edit C NAME.
{
    sed -nE 's/^([a-z0-9_]+)( +staticlib)? *:.*/crate \1/p' crates.txt
    awk '
        FNR == 1 { split(FILENAME, path, "/"); file = FILENAME; sub(".*/", "", file); sub("[.]antt$", "", file) }
        /^[^ \t]/ {
            line = $0
            while (sub(/^(pub|abbrev|unfoldable|record|data) /, "", line)) continue
            gsub(/«|»/, "", line)
            sub(/[ :({].*/, "", line)
            if (line == "") next
            if (path[3] == "specs") print "definition", path[2], file, line
            print "law", path[2], line
        }
    ' $(find crates -path 'crates/*/out' -prune -o -name '*.antt' -print | sort)
    for source in crates/*/src/*.rt; do
        crate=${source#crates/}
        crate=${crate%%/*}
        sed -nE "s/^ *(pub |const |unsafe |extern \"C\" )*fn ([a-z0-9_]+).*/function $crate \2/p; s/^pub use .*::([a-z0-9_]+);.*/function $crate \1/p
            s/^(pub )?mod ([a-z0-9_]+);.*/function $crate \2/p" "$source"
    done
    find crates -path 'crates/*/out' -prune -o -path '*/proofs/*' -print | awk -F / '{ for (i = 4; i <= NF; i++) print "proof", $2, $i }' | sort -u
    find crates -path 'crates/*/out' -prune -o -path '*/must-fail/*.edit' -print | sed -E 's|crates/([^/]*)/must-fail/(.*)[.]edit|edit \1 \2|' | sort
} >"$names"

# A row with an empty first cell goes on with the one above: with its crate and its file.
awk -F '|' '
    function bad(what) { print FILENAME ":" FNR ": " what; wrong = 1 }

    # The names of a cell one after another: `NAME`, or the name of a file of definitions, which begins with a capital letter and has no marks.
    function next_name(   found) {
        found = match(cell, /`[^`]+`|[A-Z][A-Za-z]+/)
        if (!found) return ""
        name = substr(cell, RSTART, RLENGTH)
        cell = substr(cell, RSTART + RLENGTH)
        return name
    }

    function plain(name) { gsub("`", "", name); return name }

    function definitions(   n) {
        while ((n = next_name()) != "") {
            if (n !~ /^`/) {
                if (!((of_definition, n) in files)) of_definition = ""
                if (!(n in specs)) bad("no file of definitions " n)
                in_file = n
            } else if (plain(n) in crates) {
                of_definition = plain(n)
                in_file = ""
            } else {
                n = plain(n)
                count++
                if (in_file == "" ? !((of_definition, n) in laws) : of_definition == "" ? !((in_file, n) in anywhere) : !((of_definition, in_file, n) in defined))
                    bad("no definition " n " in " of_definition " " in_file)
            }
        }
    }

    function functions(   n, parts, last) {
        while ((n = next_name()) != "") {
            if (n !~ /^`/) continue
            last = split(plain(n), parts, "::")
            if (last > 1) of_function = parts[1]
            count++
            if (!((of_function, parts[last]) in called)) bad("no function " parts[last] " in " of_function)
        }
    }

    function proofs(   n) {
        while ((n = next_name()) != "") {
            if (n !~ /^`/) continue
            n = plain(n)
            if (n in crates) of_proof = n
            else {
                sub("/$", "", n)
                count++
                if (!((of_proof, n) in proved)) bad("no proof " n " in " of_proof)
            }
        }
    }

    function edits(   n) {
        while ((n = next_name()) != "") {
            n = plain(n)
            if (n in crates) of_edit = n
            else if ((of_edit, n) in edited) {
                if ((of_edit, n) in listed) bad("the edit " n " of " of_edit " is listed twice")
                listed[of_edit, n]
            } else bad("no edit " n " in " of_edit)
        }
    }

    FILENAME != page {
        split($0, word, " ")
        if (word[1] == "crate") crates[word[2]]
        else if (word[1] == "definition") { defined[word[2], word[3], word[4]]; anywhere[word[3], word[4]]; files[word[2], word[3]]; specs[word[3]] }
        else if (word[1] == "law") laws[word[2], word[3]]
        else if (word[1] == "function") called[word[2], word[3]]
        else if (word[1] == "proof") proved[word[2], word[3]]
        else if (word[1] == "edit") { edited[word[2], word[3]]; edits_there++ }
        next
    }
    table != "rules" {
        cell = $0
        while (match(cell, /`[a-z_]+(::[A-Za-z0-9_]+)+`/)) {
            name = substr(cell, RSTART + 1, RLENGTH - 2)
            cell = substr(cell, RSTART + RLENGTH)
            last = split(name, part, "::")
            count++
            if (!((part[1], part[last]) in called)) bad("no function " part[last] " in " part[1])
        }
    }
    /^## / { table = $0 == "## Where each rule lives" ? "rules" : "" }
    /^The must-fail edits/ { table = "edits" }
    table == "" || !/^\| / { next }
    $2 !~ /^ *$/ { of_definition = in_file = of_function = of_proof = of_edit = "" }
    table == "rules" { cell = $3; definitions(); cell = $4; functions(); cell = $5; proofs() }
    table == "edits" { cell = $3; edits() }
    END {
        for (edit in edited) if (!(edit in listed)) { split(edit, word, SUBSEP); print page ": the edit " word[2] " of " word[1] " is not listed"; wrong = 1 }
        if (count < 200 || edits_there < 50) { print page ": the tables were not found"; wrong = 1 }
        print page ": " count " names of definitions, functions and proofs are there, and the " edits_there " must-fail edits are those of the second"
        exit wrong
    }
' page="$page" "$names" "$page" >"$out/developer_page"
status=$?
cat "$out/developer_page"
[ "$status" -eq 0 ] || fail "$page and the tree differ as said above"

# Files and folders that a page names from crates/ on are there, but for what rt makes, in crates/*/out; a name in the last column of a table of docs/WRONG.md is a must-fail edit.
gone=$(for path in $(grep -ohE '`crates/[a-z0-9_]+[A-Za-z0-9_./-]*`' README.md docs/*.md | tr -d '`' | sort -u | grep -v '^crates/[a-z0-9_]*/out/'); do [ -e "$path" ] || echo "$path"; done)
[ -z "$gone" ] || fail "the pages name what is not there: $gone"
gone=$(awk -F '|' '/^\|/ { print $(NF - 1) }' docs/WRONG.md | grep -oE '`[a-z0-9_]+`' | tr -d '`' | sort -u | comm -23 - <(sed -nE 's/^(edit [^ ]*|crate) //p' "$names" | sort -u))
[ -z "$gone" ] || fail "docs/WRONG.md names edits that are not there: $gone"

# README.md has each crate once, in its table.
diff <(sed -n 's/^crate //p' "$names" | sort) <(sed -nE 's/^\| [a-zC]* ?\| `([a-z0-9_]+)` \|.*/\1/p' README.md | sort) ||
    fail "crates.txt (<) and the table of README.md (>) differ as said above"

long=$(LC_ALL=C.UTF-8 grep -nE '.{181}' README.md docs/*.md | cut -c 1-120)
[ -z "$long" ] || fail "lines of more than 180 characters: $long"
echo "README.md has each crate once; no line of README.md and docs/ has more than 180 characters."
