#!/bin/sh
# Random bytes and mutated scripts, each ends with status 0, 2 or 3 in time, and scripts that are answered as a plain map does, a twentieth as many with
# erases, ticks and pins in several runs over one folder, whose files have few entries: tests/fuzz.sh [COUNT [SEED]].
# shellcheck source=tests/common.sh
. "$(dirname -- "$0")/common.sh"
needs python3
needs_program
count=${1:-2000}
seed=${2:-$(od -An -N4 -tu4 /dev/urandom | tr -d ' ')}
told=$(python3 "$root/bench/fuzz_run" "$count" "$seed" 2>&1) || fail "$told"
maps=$(python3 "$root/bench/maps_run" $((count / 20)) "$seed" 2>&1) || fail "$maps"
pass "$told; $maps"
