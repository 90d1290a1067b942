#!/usr/bin/env bash
# Times the library against the independent version, on the same schedules.
set -euo pipefail
source "$(dirname "$0")/library.sh"
exec cargo run --offline --quiet --release -p bench -- "$@"
