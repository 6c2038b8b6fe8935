#!/usr/bin/env bash
# Two misuses of a rig are refused before a program runs. Each is a small program, kept as text, which is tried in a copy of the crates; the right use
# beside them has to run, so that a refusal is not one of something else.
set -euo pipefail
cd "$(dirname "$0")/.."

scratch=$(mktemp -d)
trap 'rm -rf "$scratch"' EXIT
tar --exclude=out -cf - crates crates.txt | tar -xf - -C "$scratch"
mkdir -p "$scratch/crates/misuse/src"
echo 'misuse: history memory steps rig' >> "$scratch/crates.txt"

# What trying one of the programs says.
try() {
    cp "tests/misuse/$1.txt" "$scratch/crates/misuse/src/main.rt"
    (cd "$scratch/crates/misuse" && rt try 2>&1) || true
}

# The program is refused, with this error and no other.
refused() {
    local said errors
    said=$(try "$1")
    errors=$(grep -o 'error\[[^]]*\]: .*' <<< "$said" || true)
    if [ "$(grep -c . <<< "$errors")" != 1 ] || [[ "$errors" != "error[$2]: $3"* ]]; then
        echo "$1 is not refused with $2 alone:" >&2
        echo "$said" >&2
        exit 1
    fi
    echo "$1: refused with $2"
}

said=$(try right)
if ! grep -q '^run=ended status=0' <<< "$said"; then
    echo "the right use does not run:" >&2
    echo "$said" >&2
    exit 1
fi
echo "right: runs"
# shellcheck disable=SC2016
refused token_let_go linear-value-let-go '`token` is let go'
# shellcheck disable=SC2016
refused closed_rig_stepped borrow-e0382 'borrow of moved value: `rig`'
