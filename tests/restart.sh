#!/bin/sh
# What one run puts and deletes, the next one reads. Tried with wrong bodies: where the disk's list of names leaves out gates, the
# second run ends with status 6, and where it leaves out segments, with status 8.
# shellcheck source=tests/common.sh
. "$(dirname -- "$0")/common.sh"
needs_program
store=$work/store

[ "$(printf '1 put a 5 x\n1 put b 6 y\n1 del a\n1 put c 7 z\n' | run "$store")" = "$(printf '1 ok 1\n1 ok 2\n1 ok 3\n1 ok 4')" ] || fail "the first run"
wanted='1 at 4 scan 2 b 6 y c 7 z'
for again in 2 3 4; do
    got=$(echo "$all" | run "$store") || fail "run $again ended with status $?"
    [ "$got" = "$wanted" ] || fail "run $again read '$got', not '$wanted'"
done
[ "$(printf '1 put b 8 new\n%s\n' "$all" | run "$store")" = "$(printf '1 ok 5\n1 at 5 scan 2 b 8 new c 7 z')" ] || fail "a change behind that"
[ "$(echo "$all" | run "$store")" = "1 at 5 scan 2 b 8 new c 7 z" ] || fail "the run behind that change"
pass "each run read what the ones before it had left"
