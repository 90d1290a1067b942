#!/usr/bin/env bash
# Builds the library and both examples, and compares what each prints with expected.txt.
set -eu
cd "$(dirname "$0")"
library=$(./library.sh)
built=$(mktemp -d)
trap 'rm -rf "$built"' EXIT

gcc -std=c11 -Wall -Wextra -Werror -O2 -o "$built/example_c" example.c "$library/librybostan.a"
rustc --edition 2024 -O -o "$built/example_rs" example.rs -L native="$library" -l static=rybostan

for example in example_c example_rs; do
    "$built/$example" > "$built/printed"
    diff expected.txt "$built/printed"
    echo "$example: as expected"
done
