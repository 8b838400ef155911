#!/bin/sh
# Shows that the check refuses each misuse beside this script, with the words that stand under its dashes.
# Each becomes a crate of a scratch repository, over copies of the crates that it needs.
set -eu
here=$(cd "$(dirname "$0")" && pwd)
crates=$(cd "$here/../.." && pwd)
scratch=$(mktemp -d)
trap 'rm -rf "$scratch"' EXIT

mkdir "$scratch/crates"
for crate in refusal ordered stages; do
    cp -r "$crates/$crate" "$scratch/crates/"
    rm -rf "$scratch/crates/$crate/out"
done
printf 'refusal:\nordered:\nstages: refusal ordered\n' > "$scratch/crates.txt"
cd "$scratch"

status=0
for text in "$here"/*.txt; do
    name=$(basename "$text" .txt)
    mkdir -p "crates/$name/src"
    sed '/^---$/,$d' "$text" > "crates/$name/src/lib.rt"
    words=$(sed '1,/^---$/d' "$text")
    printf '%s: stages\n' "$name" >> crates.txt
    if (cd "crates/$name" && rt check) > "$name.log" 2>&1; then
        echo "$name: NOT REFUSED"
        status=1
    elif grep -qF -- "$words" "$name.log"; then
        echo "$name: refused"
        grep -F -- "$words" "$name.log"
    else
        echo "$name: refused, but not with: $words"
        tail -5 "$name.log"
        status=1
    fi
done
exit $status
