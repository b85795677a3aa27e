#!/usr/bin/env bash
# Builds the proved program once, and runs it.
top=$(cd "$(dirname "$0")" && pwd)
program=$top/crates/smt_cli/out/smt_cli
if [ ! -x "$program" ]; then
    echo "smt: proving and building the program, once; this takes about half an hour on four cores" >&2
    log=$(mktemp)
    (cd "$top/crates/smt_cli" && rt run -- check no-goal no-proof) > "$log" 2>&1
    if [ ! -x "$program" ]; then
        cat "$log" >&2
        rm -f "$log"
        exit 70
    fi
    rm -f "$log"
fi
exec "$program" "$@"
