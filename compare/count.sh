#!/usr/bin/env bash
# Counts instructions, of the library and of the independent version: whole runs, steps on lent words, and the
# test of well-formedness, on each file of the benchmark. A count is what ten repetitions add, divided by ten.
set -euo pipefail
source "$(dirname "$0")/library.sh"
cargo build --offline --quiet --release -p bench

counted() {
    valgrind --tool=callgrind --callgrind-out-file=/dev/null target/release/bench "$@" 2>&1 |
        sed -n 's/^.*refs: *//p' | tr -d ,
}

each() {
    echo $((($(counted "$@" --times 11) - $(counted "$@" --times 1)) / 10))
}

printf '%-6s %-4s %12s %12s %6s\n' what file library independent ratio
for what in run words test; do
    for file in 1 2 3 4 5; do
        library=$(each --only library --what $what --file $file)
        independent=$(each --only independent --what $what --file $file)
        printf '%-6s %-4s %12s %12s %6s\n' $what $file "$library" "$independent" \
            "$(awk "BEGIN { printf \"%.2f\", $library / $independent }")"
    done
done
