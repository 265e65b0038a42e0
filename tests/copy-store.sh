#!/bin/sh
# tools/copy-store: the copy answers each read as the store does, under other options, and has nothing of what was deleted, erased or overwritten;
# a copy that isn't whole is never there; and what is refused leaves both folders as they were. Tried with wrong tools, which leave out the last script
# of puts, the greatest key, or the removal of half a copy, or make a script that is too long.
# shellcheck source=tests/common.sh
. "$(dirname -- "$0")/common.sh"
needs_program
needs python3
copy=$root/tools/copy-store
old=$work/old new=$work/new
greatest="=$(head -c 255 /dev/zero | tr '\0' '\377' | od -An -v -tx1 | tr -d ' \n')"

# Keys of every kind, the least and the greatest among them, and 2,100 values of 4,096 bytes with a space: as hexadecimal digits more than a script has.
{
    printf '1 put =00 5 x\n1 put =ff 3 =\n1 put =ff00 3 =2020\n1 put =636166c3a9 18446744073709551615 =00ff\n1 put %s 9 last\n' "$greatest"
    printf '1 put gone 1 DELETED_VALUE\n1 put k 1 OVERWRITTEN_VALUE\n1 put day 7 ERASED_VALUE\n1 del gone\n1 erase 7 8\n1 put k 2 v\n1 tick 30\n'
} | run "$old" >"$work/text" || fail "the store wasn't made: status $?"
for part in 1 2; do
    awk -v part="$part" 'BEGIN {
        value = "20"
        for (i = 0; i < 12; i++) value = value value
        for (i = 0; i < 1050; i++) printf "1 put large:%d:%04d %d =%s\n", part, i, i, value
    }' | run "$old" >"$work/text" || fail "the large values weren't put: status $?"
done

# reads FOLDER OPTION..: what a store has, without the number of its changes.
reads() {
    folder=$1
    shift
    printf '1 scan =00 %s\n1 get %s\n' "$greatest" "$greatest" | "$program" "$folder" run "$@" | sed 's/^1 at [0-9]* //'
}

reads "$old" >"$work/wanted"
[ "$(cut -c 1-10 "$work/wanted" | tr '\n' '|')" = "scan 2105 |val 9 last|" ] || fail "the store has $(cut -c 1-40 "$work/wanted")"
"$copy" "$old" to "$new" --threshold 29 --buffer 64 >"$work/text" 2>"$work/said" || fail "it ended with status $? and said $(cat "$work/said")"
[ "$(cat "$work/text")" = "2106 keys copied from $old to $new, and read back" ] || fail "it printed $(cat "$work/text")"
[ ! -e "$new.part" ] || fail "it left $new.part"
reads "$new" --threshold 29 --buffer 64 >"$work/found"
cmp -s "$work/wanted" "$work/found" || fail "the copy reads otherwise"
held=$(grep -rlaE 'DELETED_VALUE|OVERWRITTEN_VALUE|ERASED_VALUE' "$new")
[ -z "$held" ] || fail "the copy has in $held what the store had deleted"
stat=$(echo '1 stat' | "$program" "$new" run --threshold 29 --buffer 64)
[ "${stat%% pins*}" = "1 at 2106 stat clock 0" ] || fail "of the copy stat tells $stat"

# What is refused: the status, a word that standard error has, and the words. Neither folder is touched.
rm -rf "$old"
printf '1 put a 5 x\n' | run "$old" >"$work/text" || fail "the small store wasn't made"
mkdir "$work/there" "$work/half.part"
touch "$work/file"
rows=0
while IFS='|' read -r status word given; do
    before=$(ls -A "$work")
    # shellcheck disable=SC2086
    (cd "$work" && "$copy" $given >"$work/text" 2>"$work/said")
    got=$?
    [ "$got" = "$status" ] || fail "'$given' ended with status $got, not $status, and said $(cat "$work/said")"
    grep -qF -- "$word" "$work/said" || fail "'$given' said $(cat "$work/said")"
    [ "$(ls -A "$work")" = "$before" ] || fail "'$given' left $(ls -A "$work")"
    rows=$((rows + 1))
done <<'ROWS'
2|OLD [options] to NEW [options]|
2|OLD [options] to NEW [options]|old
2|OLD [options] to NEW [options]|old to
2|OLD [options] to NEW [options]|old other
2|OLD [options] to NEW [options]|old --threshold to other
2|OLD [options] to NEW [options]|old to other --threshold
2|OLD [options] to NEW [options]|--help to other
1|there is there already|old to there
1|file is there already|old to file
1|half.part is there already|old to half
1|there is no store in none|none to other
1|status 9|old --threshold 29 to other
1|--threshold 0|old to other --threshold 0
1|status 10|old to none/other
ROWS
[ "$(reads "$old" | tr '\n' '|')" = "scan 1 a 5 x|none|" ] || fail "the old store isn't what it was"

# A store that is damaged is refused, and no half of it stays.
printf '1 put b 5 y\n' | run "$old" >"$work/text" || fail "the second run"
echo '1 stat' | run "$old" >"$work/text" || fail "the third run"
for page in "$old"/p-*; do
    printf 'z' | dd of="$page" bs=1 seek=20 conv=notrunc 2>/dev/null || fail "the page couldn't be damaged"
done
"$copy" "$old" to "$work/other" >"$work/text" 2>"$work/said"
status=$?
[ "$status" = 1 ] || fail "of a damaged store it ended with status $status"
grep -q 'status 8' "$work/said" || fail "of a damaged store it said $(cat "$work/said")"
for name in other other.part; do
    [ ! -e "$work/$name" ] || fail "a damaged store left $name"
done
pass "2106 keys were copied to other options, with nothing of what was deleted; $rows refusals and a damaged store left nothing"
