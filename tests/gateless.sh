#!/bin/sh
# A used folder whose gate is gone, as where empty files were tidied away, is refused and left as it was; one that holds no more than a store has in its first
# moments is taken for one that was just begun.
# shellcheck source=tests/common.sh
. "$(dirname -- "$0")/common.sh"
needs_program
store=$work/store

# Each name, what it is, and the bytes.
listing() {
    (cd "$1" && find . -printf '%P %y %s %m\n' | sort && find . -type f -exec sha256sum {} + | sort)
}

# refused FOLDER WHY: a look at the folder is refused, and touches nothing.
refused() {
    listing "$1" >"$work/before"
    echo '1 stat' | run "$1" >"$work/text"
    status=$?
    [ "$status" = 10 ] || fail "$2: status $status"
    [ "$(cat "$work/text")" = "bad folder" ] || fail "$2: '$(cat "$work/text")' was printed"
    listing "$1" >"$work/after"
    cmp -s "$work/before" "$work/after" || fail "$2: the folder was changed"
}

for key in a b c d e f g h; do echo "1 put $key 5 x"; done | "$program" "$store" run --buffer 2 --page 2 >"$work/text" || fail "a store of eight keys"
gate=$(cd "$store" && ls g-*)
find "$store" -empty -delete
[ ! -e "$store/$gate" ] || fail "the gate isn't an empty file"
listing "$store" >"$work/before"
echo '1 stat' | "$program" "$store" run --buffer 2 --page 2 >"$work/text"
[ "$?-$(cat "$work/text")" = "10-bad folder" ] || fail "a used folder without its gate: $(cat "$work/text")"
listing "$store" >"$work/after"
cmp -s "$work/before" "$work/after" || fail "a used folder without its gate was changed"
: >"$store/$gate"
[ "$(echo '1 get a' | "$program" "$store" run --buffer 2 --page 2)" = "1 at 8 val 5 x" ] || fail "with its gate the store isn't what it was"

# What a store has before its first gate is no store yet, and one with a greater number is more than that.
begun=$work/begun
mkdir "$begun"
: >"$begun/s-00000000000000000001"
: >"$begun/m-00000000000000000002"
[ "$(echo '1 put a 5 x' | run "$begun")" = "1 ok 1" ] || fail "a folder with what a store begins with is refused"
for name in s-00000000000000000003 m-00000000000000000003 f-00000000000000000001 p-00000000000000000000; do
    rm -rf "$begun"
    mkdir "$begun"
    : >"$begun/$name"
    refused "$begun" "with $name alone"
done
pass "a used folder without its gate is refused and left as it was, and so are four that hold a part of one"
