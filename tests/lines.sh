#!/bin/sh
# Lines of a script as people write them: each row has the script, the status, what is printed and the reason that is said of it. A script that is refused
# leaves the folder as it was.
# Rows name variables.
# shellcheck disable=SC2034
# shellcheck source=tests/common.sh
. "$(dirname -- "$0")/common.sh"
needs_program
made=$work/made store=$work/store
printf '1 put a 5 x\n1 put b 6 y\n' | run "$made" >"$work/text" || fail "the store wasn't made"

# long COUNT: so many letters.
long() {
    head -c "$1" /dev/zero | tr '\0' k
}
key=$(long 256) value=$(long 4097)

# carried STATUS PRINTED SAID: carries the script out over a copy of the store, and compares; SAID is all of standard error.
carried() {
    rm -rf "$store"
    cp -rp "$made" "$store"
    listing "$store" >"$work/before"
    run "$store" <"$work/script" >"$work/text" 2>"$work/said"
    status=$?
    [ "$status" = "$1" ] || fail "'$script' ended with status $status, not $1"
    printf '%b' "$2" | cmp -s - "$work/text" || fail "'$script' printed '$(head -c 300 "$work/text")'"
    printf '%s' "$3" | cmp -s - "$work/said" || fail "'$script' says '$(head -c 600 "$work/said")'"
    if [ "$status" != 0 ]; then
        listing "$store" >"$work/after"
        cmp -s "$work/before" "$work/after" || fail "'$script' changed the folder"
    fi
}

rows=0
more='there are more fields; a key has no spaces; write =HEX, for example by xxd -p'
behind='behind = stand hexadecimal digits in lower case, two for each byte'
digits='a number has decimal digits without a leading zero and is below 2^64'
while IFS='|' read -r script status printed reason; do
    printf '%b\n' "$script" | sed "s/KEY256/$key/; s/VALUE4097/$value/" >"$work/script"
    unset LETHE_EXPLAIN
    carried "$status" "$printed" ''
    eval "reason=\"$reason\""
    export LETHE_EXPLAIN=yes
    carried "$status" "$printed" "${reason:+lethe: $reason (status $status: ./lethe --help)
}"
    rows=$((rows + 1))
done <<'END'
1 put c 5 two words|3|line 1 bad count\n|line 1: put takes KEY NUMBER VALUE, and there are more fields; a key and a value have no spaces; write =HEX, for example by xxd -p
1 put c 5 "two words"|3|line 1 bad count\n|line 1: put takes KEY NUMBER VALUE, and there are more fields; a key and a value have no spaces; write =HEX, for example by xxd -p
1 put c 5|3|line 1 bad count\n|line 1: put takes KEY NUMBER VALUE, and there are fewer fields
1 put caf\0303\0251 5 x|3|line 1 bad byte\n|line 1: byte 10, c3 in hexadecimal, is no visible ASCII character; write the field as =HEX, for example by xxd -p
1 put c\t5 x|3|line 1 bad byte\n|line 1: byte 8 is a tab; fields stand between spaces
1 get \ra|3|line 1 bad byte\n|line 1: byte 7, 0d in hexadecimal, is no visible ASCII character; write the field as =HEX, for example by xxd -p
1 put c 2026-12-01 x|3|line 1 bad number\n|line 1: 2026-12-01 is no number: put takes KEY NUMBER VALUE, and $digits
1 put c x 5|3|line 1 bad number\n|line 1: x is no number: put takes KEY NUMBER VALUE, and $digits
1 put c 05 x|3|line 1 bad number\n|line 1: 05 is no number: put takes KEY NUMBER VALUE, and $digits
1 put c -5 x|3|line 1 bad number\n|line 1: -5 is no number: put takes KEY NUMBER VALUE, and $digits
1 put c 18446744073709551616 x|3|line 1 bad number\n|line 1: 18446744073709551616 is no number: put takes KEY NUMBER VALUE, and $digits
1 erase 1 2x|3|line 1 bad number\n|line 1: 2x is no number: erase takes NUMBER NUMBER, and $digits
1 tick 2026-12-01|3|line 1 bad number\n|line 1: 2026-12-01 is no time: tick takes T, decimal digits without a leading zero, at most 2^62
1 tick 4611686018427387905|3|line 1 bad number\n|line 1: 4611686018427387905 is no time: tick takes T, decimal digits without a leading zero, at most 2^62
put c 5 x|3|line 1 bad caller\n|line 1: a line begins with a caller, 1 to 8, or is phase, and not with put
9 put c 5 x|3|line 1 bad caller\n|line 1: a line begins with a caller, 1 to 8, or is phase, and not with 9
phase 2|3|line 1 bad count\n|line 1: phase stands on a line of its own
1|3|line 1 bad command\n|line 1: no command stands behind the caller; ./lethe --help lists them
1 fetch a|3|line 1 bad command\n|line 1: fetch is no command; ./lethe --help lists them
1 PUT c 5 x|3|line 1 bad command\n|line 1: PUT is no command; ./lethe --help lists them
1 get a # a comment|3|line 1 bad count\n|line 1: a comment stands on a line of its own
1 get a b|3|line 1 bad count\n|line 1: get takes KEY, and $more
1 scan a|3|line 1 bad count\n|line 1: scan takes KEY KEY, and there are fewer fields
1 tick 5 6|3|line 1 bad count\n|line 1: tick takes T, and there are more fields
1 stat now|3|line 1 bad count\n|line 1: stat takes nothing, and there are more fields
1 get =|3|line 1 bad key\n|line 1: a key is never empty
1 put = 5 x|3|line 1 bad key\n|line 1: a key is never empty
1 get KEY256|3|line 1 bad key\n|line 1: a key has from 1 to 255 bytes, or = and two lower-case hexadecimal digits for each
1 get =616|3|line 1 bad key\n|line 1: =616 is no key: $behind
1 get =AB|3|line 1 bad key\n|line 1: =AB is no key: $behind
1 get =xy|3|line 1 bad key\n|line 1: =xy is no key: $behind
1 put c 5 =616|3|line 1 bad value\n|line 1: =616 is no value: $behind
1 put c 5 VALUE4097|3|line 1 bad value\n|line 1: a value has at most 4096 bytes, or = and two lower-case hexadecimal digits for each
1 pin 10|3|line 1 bad slot\n|line 1: 10 is no slot: pin takes SLOT, and a slot is one digit
1 pin a|3|line 1 bad slot\n|line 1: a is no slot: pin takes SLOT, and a slot is one digit
1 pin 3\n1 get a\n1 pin 3|3|line 3 bad slot\n|line 3: slot 3 is held by a pin of a line above: unpin it first, or take another
1 pget 3 a|3|line 1 bad slot\n|line 1: slot 3 is free: no pin of a line above holds it
1 pin 3\n1 unpin 3\n1 pscan 3 a b|3|line 3 bad slot\n|line 3: slot 3 is free: no pin of a line above holds it
1 unpin 3|3|line 1 bad slot\n|line 1: slot 3 is free: no pin of a line above holds it
1 erase 5 5|3|line 1 bad range\n|line 1: erase takes NUMBER NUMBER, and the first, 5, isn't below the second, 5
1 erase 6 5|3|line 1 bad range\n|line 1: erase takes NUMBER NUMBER, and the first, 6, isn't below the second, 5
1 put c 7 z\n\n# a comment\n1 put d 8|3|line 4 bad count\n|line 4: put takes KEY NUMBER VALUE, and there are fewer fields
1 scan b a|0|1 at 2 scan 0\n|
1 scan a a|0|1 at 2 scan 0\n|
# a comment\n\n1 get a\r|0|1 at 2 val 5 x\n|
1 put c 5 "quoted"\n1 get c|0|1 ok 3\n1 at 3 val 5 "quoted"\n|
1 put c 5 =\n1 get c|0|1 ok 3\n1 at 3 val 5 =\n|
1 put =636166c3a9 5 =74776f20776f726473\n1 get =636166c3a9|0|1 ok 3\n1 at 3 val 5 =74776f20776f726473\n|
END

# A line of the greatest script's length, and one that is longer: what is said of them is cut.
for length in 16777209 16777210; do
    script="a key of $length bytes"
    { printf '1 get '; long "$length"; echo; } >"$work/script"
    why=key
    [ "$length" = 16777209 ] || why=size
    run "$made" <"$work/script" >"$work/text" 2>"$work/said"
    [ "$?-$(cat "$work/text")" = "3-line 1 bad $why" ] || fail "$script is answered '$(head -c 300 "$work/text")'"
    [ "$(grep -c '^lethe: line 1: .* (status 3: ./lethe --help)$' "$work/said")" = 1 ] || fail "of $script it says '$(head -c 600 "$work/said")'"
    [ "$(wc -c <"$work/said")" -le 600 ] || fail "of $script it says $(wc -c <"$work/said") bytes"
done
pass "$rows scripts and two of 16 MiB were answered as they should be, and those that are refused left the folder as it was"
