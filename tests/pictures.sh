#!/bin/sh
# The pictures of docs/PERFORMANCE.md, and their tables, are what bench/pictures makes of the numbers in docs/pictures; and a number that is changed is told.
# shellcheck source=tests/common.sh
. "$(dirname -- "$0")/common.sh"
needs python3
told=$(python3 "$root/bench/pictures" --check 2>&1) || fail "$told"
mkdir "$work/bench" "$work/docs"
cp "$root/bench/pictures" "$root/bench/figures.py" "$work/bench/"
cp -R "$root/docs/PERFORMANCE.md" "$root/docs/pictures" "$work/docs/"
count=0
for numbers in "$work"/docs/pictures/*.csv; do
    cp "$numbers" "$work/kept"
    echo '"idle","another line",1,5' >>"$numbers"
    python3 "$work/bench/pictures" --check >"$work/told" 2>&1 && fail "a number of ${numbers##*/} was changed, and nothing is told"
    cp "$work/kept" "$numbers"
    count=$((count + 1))
done
python3 "$work/bench/pictures" --check || fail "the copy isn't what it was"
pass "$count pictures with their tables are what their numbers give"
