#!/bin/sh
# A disk that is full gives a named fault, and loses nothing that was acknowledged. It needs root, for a file system of 1 MiB.
# shellcheck source=tests/common.sh
. "$(dirname -- "$0")/common.sh"
[ "$(id -u)" = 0 ] || skip "it needs root, to mount a small file system"
needs mount umount
needs_program
small=$work/small
mkdir "$small"
mount -t tmpfs -o size=1M lethe_full "$small" 2>/dev/null || skip "it needs to mount a small file system, which is refused here"
trap 'umount "$small"; rm -rf "$work"' EXIT
store=$small/store

awk 'BEGIN { for (i = 1; i <= 20000; i++) printf "1 put key%05d %d %0100d\n", i, i, i; print "1 get key00001" }' >"$work/script"
run "$store" <"$work/script" >"$work/text"
status=$?
[ "$status" = 6 ] || fail "the first run ended with status $status"
done=$(grep -c '^1 ok ' "$work/text")
fault=$(grep -m 1 fault "$work/text")
[ "$done" -gt 100 ] || fail "only $done puts were acknowledged"
[ "$fault" = "1 fault $((done + 1)) before 0 after 1" ] || fail "the fault is told as '$fault'"
[ "$(grep -c "^1 stopped $((done + 1))\$" "$work/text")" = $((19999 - done)) ] || fail "what stands behind the fault"
tail -n 1 "$work/text" | grep -q '^1 at [0-9]* val 1 0' || fail "reads don't go on behind the fault"

# check WHERE: the store has what was acknowledged, and at most the put that failed beside it.
check() {
    echo "$all" | run "$store" >"$work/text" || fail "$1: status $?, $(head -c 200 "$work/text")"
    count=$(cut -d ' ' -f 5 "$work/text")
    [ "$count" = "$done" ] || [ "$count" = $((done + 1)) ] || fail "$1: $count of $done puts"
    awk -v count="$count" 'BEGIN { printf "1 at %d scan %d", count, count; for (i = 1; i <= count; i++) printf " key%05d %d %0100d", i, i, i; print "" }' >"$work/wanted"
    cmp -s "$work/text" "$work/wanted" || fail "$1: the store has other values"
}

# An opening writes the records anew, for which the full disk may have no room: then it has to say so, and to leave them.
echo "$all" | run "$store" >"$work/text"
status=$?
case $status in
0) opened="opened" ;;
6) opened="not opened: $(cat "$work/text")" ;;
*) fail "on the full disk it ended with status $status, $(cat "$work/text")" ;;
esac
mount -o remount,size=8M "$small" || fail "the file system couldn't be made larger"
check "with room"
check "once more"
pass "$done puts were acknowledged before '$fault', all are there; on the full disk the store was $opened"
