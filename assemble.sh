#!/usr/bin/env bash
# Proves and builds the program assemble if that is needed, and assembles a shader: ./assemble.sh FILE
set -eu
shader=$(realpath "${1:?usage: ./assemble.sh FILE}")
cd "$(dirname "$0")"
program=crates/assemble/out/assemble
if [ ! -x $program ] || [ -n "$(find crates crates.txt -name out -prune -o -type f -newer $program -print -quit)" ]; then
    echo "building (some minutes the first time; the log is crates/assemble/out/build.log)" >&2
    mkdir -p crates/assemble/out
    # A run on the crate's own example proves and builds what has changed.
    (cd crates/assemble && rt run < stdin > out/build.log 2>&1) || { tail -5 crates/assemble/out/build.log >&2; exit 2; }
    touch $program
fi
exec $program < "$shader"
