#!/bin/sh
# While a process has a folder, a second one is refused: while the first waits for its script, and all the time that it
# carries a long one out. Tried with a wrong body: where the disk lets the lock go at its first sync, long before it is handed back,
# a second process is let in while the first one runs.
# shellcheck source=tests/common.sh
. "$(dirname -- "$0")/common.sh"
needs_program
store=$work/store

mkfifo "$work/script"
run "$store" <"$work/script" >"$work/text" &
first=$!
exec 3>"$work/script"
while [ ! -e "$store" ]; do :; done

# second: asks for the folder, and says what came of it.
second() {
    echo "$all" | run "$store" >"$work/second"
    echo "$? $(cat "$work/second")"
}

# The first may not have locked the folder yet when it has just made it.
sleep 1
[ "$(second)" = "10 bad folder" ] || fail "a second process was let in while the first waits for its script"
awk 'BEGIN { for (i = 0; i < 20000; i++) printf "1 put key%05d %d value\n", i, i }' >&3
exec 3>&-
asked=0
while :; do
    got=$(second)
    kill -0 "$first" 2>/dev/null || break
    [ "$got" = "10 bad folder" ] || fail "a second process was let in while the first runs"
    asked=$((asked + 1))
done
wait "$first" || fail "the first process ended with status $?"
[ "$(tail -n 1 "$work/text")" = "1 ok 20000" ] || fail "the first process was disturbed"
case $(second) in
"0 1 at 20000 scan 20000 "*) ;;
*) fail "the folder isn't free once the first process has ended" ;;
esac
[ "$asked" -ge 10 ] || fail "only $asked processes came while the first ran; give it more to do"
pass "a second process was refused $((asked + 1)) times, and let in once the first had ended"
