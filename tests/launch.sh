#!/bin/sh
# `./lethe` in a copy of the sources that has no proved program: one line on standard error says so, the rest, standard output and the status are the program's,
# and what is stored is there for the next run. rt builds the sources anew for each call, so this takes some minutes.
# shellcheck source=tests/common.sh
. "$(dirname -- "$0")/common.sh"
needs rt tar
copy=$work/copy
mkdir "$copy" "$work/elsewhere"
tar -C "$root" --exclude=./.git --exclude=out -cf - . | tar -C "$copy" -xf - || fail "the sources couldn't be copied"
cd "$work/elsewhere" || fail "no folder"

# call WANTED STATUS REASON WORD..: runs ./lethe of the copy over standard input, and compares. Where there is a reason it stands in a line of its own.
call() {
    wanted=$1 ends=$2 reason=$3
    shift 3
    "$copy/lethe" "$@" >"$work/text" 2>"$work/said"
    status=$?
    [ "$status" = "$ends" ] || fail "'$*' ended with status $status, not $ends: $(tail -n 3 "$work/said")"
    printf '%s\n' "$wanted" | cmp -s - "$work/text" || fail "'$*' printed '$(head -c 300 "$work/text")'"
    [ "$(sed 1d "$work/said")" = "$reason" ] || fail "behind its first line standard error has $(cat "$work/said")"
}

[ "$("$copy/lethe" --version | tail -n 1)" = "sources, run unproved by rt try" ] || fail "--version tells '$("$copy/lethe" --version)'"
begun=$(date +%s)
printf '1 put a 5 x\n1 get a\n' | call '1 ok 1
1 at 1 val 5 x' 0 '' store run || exit 1
first=$(($(date +%s) - begun))
[ -d "$work/elsewhere/store" ] || fail "the store isn't in the folder where it was asked for"
# A script that comes slowly is taken whole.
{
    printf '1 get a\n'
    sleep 4
    printf '1 del a\n1 get a\n'
} | call '1 at 1 val 5 x
1 ok 2
1 at 2 none' 0 '' "$work/elsewhere/store" run || exit 1
printf '1 put a\n' | call 'line 1 bad count' 3 'lethe: line 1: put takes KEY NUMBER VALUE, and there are fewer fields (status 3: ./lethe --help)' store run || exit 1

# A program that is there is taken, with the words as they are, until a source is newer.
mkdir -p "$copy/crates/lethe_cli/out"
printf '#!/bin/sh\nprintf "%%s|" "$@"\ncat\nexit 6\n' >"$copy/crates/lethe_cli/out/lethe_cli"
chmod +x "$copy/crates/lethe_cli/out/lethe_cli"
[ "$(echo in | "$copy/lethe" 'a b' run '' --version)" = 'a b|run||--version|in' ] || fail "the words aren't passed as they are"
touch "$copy/crates/lethe_mem/specs/Lib.antt"
[ "$("$copy/lethe" --version | tail -n 1)" = "sources, run unproved by rt try" ] || fail "a program that is older than its sources is taken"
pass "without a proved program the first answer took $first s"
