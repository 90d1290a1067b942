#!/usr/bin/env bash
# Runs the differential test: the library against the independent version.
set -euo pipefail
source "$(dirname "$0")/library.sh"
exec cargo run --offline --quiet --release -p differ -- "$@"
