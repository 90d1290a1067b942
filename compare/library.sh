# Sourced: makes this folder the current one, and RYBOSTAN_LIB_DIR the folder of librybostan.a, which is made first where it is not given.
if [ -n "${RYBOSTAN_LIB_DIR:-}" ]; then
    RYBOSTAN_LIB_DIR=$(cd "$RYBOSTAN_LIB_DIR" && pwd)
    cd "$(dirname "$0")"
else
    cd "$(dirname "$0")"
    RYBOSTAN_LIB_DIR=$(../hosts/library.sh)
fi
export RYBOSTAN_LIB_DIR
