#!/usr/bin/env bash
# Shows examples/power-loss and what the script program prints for it, without waiting for a proof.
set -eu
cd "$(dirname "$0")/.."
. scripts/needs_rt.sh
said=$(mktemp)
trap 'rm -f "$said"' EXIT
echo "The script, examples/power-loss:"
sed 's/^/    /' examples/power-loss
echo "Building the script program without proofs (about a minute) .."
begun=$SECONDS
(cd crates/cg_sim && rt try < ../../examples/power-loss) >"$said" 2>/dev/null || true
echo "Built and run in $((SECONDS - begun)) s. It prints:"
sed 's/^/    /' "$said"
if cmp -s "$said" examples/power-loss.stdout; then
    echo "That is what examples/power-loss.stdout has. make sim proves the program before it runs it."
else
    echo "That differs from examples/power-loss.stdout:" >&2
    diff "$said" examples/power-loss.stdout >&2 || true
    exit 1
fi
