#!/bin/sh
# A folder with a name that is no object's is refused, and left as it was.
# shellcheck source=tests/common.sh
. "$(dirname -- "$0")/common.sh"
needs_program
store=$work/store

# Each name, what it is, and the bytes.
listing() {
    (cd "$store" && find . -printf '%P %y %s %m %T@\n' | sort && find . -type f -exec sha256sum {} + | sort)
}

echo '1 put a 5 x' | run "$store" >"$work/text"
refused=0
while read -r name; do
    printf 'not of the store\n' >"$store/$name"
    listing >"$work/before"
    echo '1 put b 6 y' | run "$store" >"$work/text"
    status=$?
    [ "$status" = 10 ] || fail "with '$name' in it, status $status"
    [ "$(cat "$work/text")" = "bad folder" ] || fail "with '$name' in it, '$(cat "$work/text")' was printed"
    listing >"$work/after"
    cmp -s "$work/before" "$work/after" || fail "with '$name' in it, the folder was changed"
    rm "$store/$name"
    refused=$((refused + 1))
done <<END
note.txt
.hidden
p-1
p-0000000000000000001
p-000000000000000000001
p-0000000000000000000a
P-00000000000000000001
q-00000000000000000001
p_00000000000000000001
p-18446744073709551616
p-99999999999999999999
$(printf 'p-0000000000000000000\351')
END
mkdir "$store/lost+found"
echo "$all" | run "$store" >"$work/text"
[ $? = 10 ] || fail "a folder in the folder wasn't refused"
rmdir "$store/lost+found"
[ "$(echo "$all" | run "$store")" = "1 at 1 scan 1 a 5 x" ] || fail "without foreign names the store isn't what it was"
pass "$refused foreign names and a folder were refused, and nothing was touched"
