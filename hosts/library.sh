#!/usr/bin/env bash
# Proves and builds the static library, and prints the folder in which librybostan.a stands.
set -eu
cd "$(dirname "$0")/../crates/rybostan"
log=$(mktemp)
trap 'rm -f "$log"' EXIT
rt lib >"$log" 2>&1 || { cat "$log" >&2; exit 1; }
echo "$PWD/out"
