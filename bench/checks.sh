#!/usr/bin/env bash
# The table of docs/SPEED.md on the checks: seconds and peak memory of each crate's check, one crate at a time, with the crates below it proved.
# Removes what earlier runs left in crates/*/out. `rt check` begins with what another checkout on the machine kept of the same crate, and its line
# says so: then the row is of that, and not from nothing. Takes an hour or so; no test.
set -eu
cd "$(dirname "$0")/.."
rm -rf crates/*/out
echo '| crate | seconds | peak memory, MB |'
echo '|---|---|---|'
while IFS=: read -r crate _; do
    case $crate in '' | '#'*) continue ;; esac
    crate=${crate%% *}
    said=$(cd "crates/$crate" && /usr/bin/time -f '%e %M' rt check --jobs 1 2>&1)
    took=$(tail -n 1 <<<"$said")
    kept=
    grep -q "^rt: $crate: begins with what a check kept" <<<"$said" && kept=', begun with kept work'
    # The library for the crates above, which is no part of the check.
    [ -f "crates/$crate/src/main.rt" ] || (cd "crates/$crate" && rt lib) >/dev/null 2>&1
    awk -v crate="$crate$kept" -v seconds="${took% *}" -v peak="${took#* }" 'BEGIN { printf "| %s | %.0f | %.0f |\n", crate, seconds, peak / 1024 }'
done <crates.txt
