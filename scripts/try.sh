#!/usr/bin/env bash
# Runs the script program on standard input without proving it. The kit compiles it with checks, which takes a minute.
set -eu
cd "$(dirname "$0")/.."
. scripts/needs_rt.sh
if [ -t 0 ]; then
    echo "make try reads a script from a file: make try < examples/power-loss (for a terminal use make sim, which proves first)" >&2
    exit 2
fi
echo "building the script program without proofs (about a minute) .." >&2
cd crates/cg_sim
exec rt try
