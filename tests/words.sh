#!/bin/sh
# Words that are no command are refused before a folder is made or touched, by the program and by `./lethe`; each row has the words and the reason that is said
# of them. tests/standins.sh has what `./lethe` refuses by itself.
# shellcheck source=tests/common.sh
. "$(dirname -- "$0")/common.sh"
needs_program
mkdir "$work/here"
cd "$work/here" || fail "no folder"

# went STATUS PRINTED SAID: compares what the call before it gave; SAID is all of standard error. Nothing was made.
went() {
    [ "$status" = "$1" ] || fail "'$line' ended with status $status"
    [ "$(cat "$work/text")" = "$2" ] || fail "'$line' printed '$(head -c 300 "$work/text")'"
    printf '%s' "$3" | cmp -s - "$work/said" || fail "'$line' says '$(head -c 300 "$work/said")'"
    [ -z "$(ls -A)" ] || fail "'$line' made $(ls -A)"
    calls=$((calls + 1))
}

# call COMMAND WORD..: carries it out, without input.
call() {
    "$@" </dev/null >"$work/text" 2>"$work/said"
    status=$?
}

calls=0
refused_words >"$work/rows"
while IFS='|' read -r line reason; do
    unset LETHE_EXPLAIN
    eval "call \"\$program\" $line"
    went 2 "bad words" ''
    eval "call \"\$root/lethe\" --quiet $line"
    went 2 "bad words" ''
    said="lethe: $reason (status 2: ./lethe --help)
"
    eval "call \"\$root/lethe\" $line"
    went 2 "bad words" "$said"
    export LETHE_EXPLAIN=
    eval "call \"\$program\" $line"
    went 2 "bad words" "$said"
done <"$work/rows"
unset LETHE_EXPLAIN

# No words, and one that is no text.
line=
call "$program"
went 2 "bad words" ''
LETHE_EXPLAIN="" call "$program"
went 2 "bad words" 'lethe: there is no folder: ./lethe DIR run < SCRIPT (status 2: ./lethe --help)
'
call "$root/lethe"
[ "$status-$(cat "$work/text")" = "2-bad words" ] || fail "no words print '$(cat "$work/text")'"
LETHE_EXPLAIN="" call "$program" "$(printf 'caf\351')" run
went 2 "bad words" 'lethe: a word of the command is no text (status 2: ./lethe --help)
'

# `./lethe` takes no word with a hyphen for a folder; ./-x is one.
for word in -h --help; do
    line="$word run"
    call "$root/lethe" "$word" run
    went 2 "bad words" "lethe: $word is no folder and no option of this command: ./lethe --help lists them (status 2: ./lethe --help)
"
done
for word in -h help --help; do
    call "$root/lethe" "$word"
    [ "$status" = 0 ] || fail "'$word' ended with status $status"
    grep -q '^Options, each at most once' "$work/text" || fail "'$word' prints no help"
done
[ "$(echo '1 get a' | "$root/lethe" ./-x run)" = "1 at 0 none" ] || fail "./-x is no folder"
rm -r ./-x

# With --existing a folder without a store is refused, also an empty one, and one with a store is opened.
line="--existing none run"
call "$root/lethe" --existing none run
went 10 "bad folder" "lethe: there is no store in none (status 10: ./lethe --help)
"
call "$root/lethe" --existing "$work/here" run
went 10 "bad folder" "lethe: there is no store in $work/here (status 10: ./lethe --help)
"
echo '1 put a 5 x' | "$root/lethe" some run >"$work/text" || fail "a put"
[ "$(echo '1 get a' | "$root/lethe" --existing some run)" = "1 at 1 val 5 x" ] || fail "--existing with a store"
[ "$(echo '1 get a' | "$root/lethe" --quiet --existing some run)" = "1 at 1 val 5 x" ] || fail "--quiet --existing with a store"
pass "$calls calls were refused with their reason, and no folder was made"
