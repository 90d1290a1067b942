#!/usr/bin/env bash
# Runs a program of crates/ on a file: tools/program.sh NAME FILE. It is proved and built first, where it is not there or older than the source.
set -eu
top=$(cd "$(dirname "$0")/.." && pwd)
program=$top/crates/$1/out/$1
newer() { find "$top"/crates/*/src "$top"/crates/*/specs "$top"/crates/*/proofs -newer "$program" -print -quit; }
if [ ! -x "$program" ] || [ -n "$(newer)" ]; then
    echo "$1: proving and building the program first; from nothing that takes some minutes" >&2
    log=$(mktemp)
    (cd "$top/crates/$1" && rt run </dev/null >"$log" 2>&1) || { cat "$log" >&2; exit 1; }
    rm -f "$log"
fi
exec "$program" <"$2"
