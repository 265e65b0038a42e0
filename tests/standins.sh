#!/bin/sh
# `./lethe` with stand-ins for the program and for rt: which words it refuses by itself and what it says of them, and in how little time; what it hands to
# the program; which lines of a run by rt it passes on; of which program it says that it is proved.
# shellcheck source=tests/common.sh
. "$(dirname -- "$0")/common.sh"
needs sha256sum
copy=$work/copy
crate=$copy/crates/lethe_cli
program=$crate/out/lethe_cli
mkdir -p "$crate/src" "$crate/out" "$work/bin" "$work/here"
cp "$root/lethe" "$root/CHANGELOG.md" "$root/crates.txt" "$copy/"
for folder in "$root"/crates/*; do
    [ "${folder##*/}" = lethe_cli ] || ln -s "$folder" "$copy/crates/"
done
echo 'fn main() {}' >"$crate/src/main.rt"
cd "$work/here" || fail "no folder"

# rt: it builds a program that has no words, and a run by it has its own lines, and among them what the program says.
cat >"$work/bin/rt" <<'RT'
#!/bin/sh
case $1 in
lib) exit ;;
run)
    printf '#!/bin/sh\necho built\n' >out/lethe_cli
    chmod +x out/lethe_cli
    echo "bad words"
    exit 2
    ;;
esac
while [ "$1" != -- ]; do shift; done
shift
printf '%s|' "$@"
cat
printf 'lethe: a reason (status 10: ./lethe --help)\nlethes: no line of the program\nrun=ended status=10 runners=1 proved=no\n' >&2
exit 10
RT
chmod +x "$work/bin/rt"

# stand_in: makes a program that prints its words, and whether it is asked for reasons.
stand_in() {
    # shellcheck disable=SC2016
    printf '#!/bin/sh\nprintf "%%s|" "$@" ${LETHE_EXPLAIN+explains}\nexit 6\n' >"$program"
    chmod +x "$program"
}

# call WORD..: runs ./lethe of the copy.
call() {
    words=$*
    printf 'in' | PATH=$path "$copy/lethe" "$@" >"$work/text" 2>"$work/said"
    status=$?
}

# went STATUS PRINTED SAID: what the call before it gave; SAID is all of standard error.
went() {
    [ "$status" = "$1" ] || fail "'$words' ended with status $status, not $1: $(head -c 300 "$work/said")"
    printf '%b' "$2" | cmp -s - "$work/text" || fail "'$words' printed '$(head -c 300 "$work/text")'"
    printf '%b' "$3" | cmp -s - "$work/said" || fail "'$words' says '$(head -c 300 "$work/said")'"
    [ -z "$(ls -A)" ] || fail "'$words' made $(ls -A)"
    calls=$((calls + 1))
}
calls=0
path=$work/bin:$PATH

# Words that are refused before anything is built, each with its reason.
refused_words >"$work/rows"
cat >>"$work/rows" <<'END'
data --existing run|behind the folder stands the command run: ./lethe DIR run < SCRIPT
-x run|-x is no folder and no option of this command: ./lethe --help lists them
--help run|--help is no folder and no option of this command: ./lethe --help lists them
--existing --version|--version is no folder and no option of this command: ./lethe --help lists them
--existing|there is no folder: ./lethe DIR run < SCRIPT
--existing --existing data run|--existing is given twice
--existing nowhere get a|behind the folder stands the command run: ./lethe DIR run < SCRIPT
data run --ratio 'a\nb'|--ratio a\\nb: --ratio is a number from 2 to 16
data run --page 1024 --tile 64|--page 1024 --tile 64: a file's 1024 x 64 x 8 entries are more than 65536
END
while IFS='|' read -r line reason; do
    eval "call $line"
    went 2 'bad words\n' "lethe: $reason (status 2: ./lethe --help)\n"
    eval "call --quiet $line"
    went 2 'bad words\n' ''
done <"$work/rows"
call
[ "$status-$(cat "$work/text")" = "2-bad words" ] || fail "no words print '$(cat "$work/text")'"
grep -q '^Options, each at most once' "$work/said" || fail "no words are answered without the help"

# A folder without a store, for --existing, and standard streams that fail.
for options in --existing '--existing --quiet' '--quiet --existing'; do
    said='lethe: there is no store in no?where (status 10: ./lethe --help)\n'
    case $options in *quiet*) said='' ;; esac
    # shellcheck disable=SC2086
    call $options "no
where" run
    went 10 'bad folder\n' "$said"
done
mkdir "$work/gateless"
: >"$work/gateless/p-00000000000000000003"
call --existing "$work/gateless" run
went 10 'bad folder\n' "lethe: there is no store in $work/gateless: it holds p-00000000000000000003 and no gate, the empty file g-.. (docs/GUIDE.md, When something goes wrong) (status 10: ./lethe --help)\n"
"$copy/lethe" data runs >/dev/full 2>"$work/said"
[ "$?-$(wc -l <"$work/said")" = 5-1 ] || fail "with standard output full it says $(cat "$work/said")"
[ "$("$copy/lethe" data runs 2>&-)" = "bad words" ] || fail "with standard error closed"

# Without a program: what rt says itself isn't passed on, what the program says is.
slow="lethe: the proved program isn't built, so rt try builds the same sources and runs them unproved, which takes a minute or more; ./lethe --build proves and builds it\n"
call data run --ratio 4
went 10 "--explain|$PWD/data|run|--ratio|4|in" "${slow}lethe: a reason (status 10: ./lethe --help)\n"
call --quiet /data run
went 10 "/data|run|in" "$slow"
PATH=$path "$copy/lethe" data run </ >"$work/text" 2>"$work/said"
status=$?
went 4 '' "${slow}lethe: standard input couldn't be read, so nothing was carried out (status 4: ./lethe --help)\n"
path=/usr/bin:/bin
call data run
went 1 '' "lethe: the program isn't built, and the toolchain's command rt isn't there, so nothing can be run\n"

# A program that is there gets its words as they are, and LETHE_EXPLAIN unless --quiet is said.
stand_in
call 'a b' run '' --version
went 6 'a b|run||--version|explains|' ''
call --quiet data -h
went 6 'data|-h|' ''
LETHE_EXPLAIN=yes call --quiet data
went 6 'data|' ''
call --existing -x run
went 2 'bad words\n' 'lethe: -x is no folder and no option of this command: ./lethe --help lists them (status 2: ./lethe --help)\n'
mkdir "$work/store"
: >"$work/store/g-00000000000000000002"
for options in --existing '--existing --quiet' '--quiet --existing'; do
    # shellcheck disable=SC2086
    call $options "$work/store" run
    case $options in
    *quiet*) went 6 "$work/store|run|" '' ;;
    *) went 6 "$work/store|run|explains|" '' ;;
    esac
done

# version: the last line of ./lethe --version.
version() {
    PATH=$path "$copy/lethe" --version | tail -n 1
}
unknown="program, not known to be proved: ./lethe --build hasn't noted its sum"
[ "$(version)" = "$unknown" ] || fail "of a program whose sum isn't noted it says '$(version)'"
sha256sum <"$program" >"$program.sum"
[ "$(version)" = "proved program" ] || fail "of a program whose sum is noted it says '$(version)'"
echo '# changed' >>"$program"
[ "$(version)" = "$unknown" ] || fail "of a program that was changed it says '$(version)'"
stand_in
[ "$(version)" = "proved program" ] || fail "of the same bytes again it says '$(version)'"
[ "$(PATH=$path "$copy/lethe" --version | head -n 1)" = "lethe $(sed -n 's/^## \([0-9.]*\).*/\1/p' "$root/CHANGELOG.md" | head -n 1)" ] || fail "the version isn't the one of CHANGELOG.md"
path=$work/bin:$PATH
rm "$program.sum"
call --build
[ "$status-$(version)-$("$copy/lethe" data)" = "0-proved program-built" ] || fail "--build ended with status $status, and --version says '$(version)'"
call --build
went 0 '' 'lethe: the proved program is there already, and no source is newer\n'
path=/usr/bin:/bin
touch -d '2001-01-01' "$program"
case $(version) in
"nothing to run"*) ;;
*) fail "of a program that is older than its sources it says '$(version)'" ;;
esac

# count: the milliseconds of processor that all before it took, as spent. The machine may be busy, so these count and not the time that goes by.
count() {
    times >"$work/times"
    spent=$(sed -n '2s/[ms]/ /gp' "$work/times" | awk '{ printf "%d", ($1 + $3) * 60000 + ($2 + $4) * 1000 }')
}

# What is refused before rt builds anything is refused at once, also where a program is there and is older than its sources.
path=$work/bin:$PATH
count
begun=$spent
for _ in 1 2 3 4 5 6 7 8 9 10; do call data run --page 4; done
count
each=$(((spent - begun) / 10))
went 2 'bad words\n' "lethe: --page 4: the buffer's 512 is more than 4 x 4 x 8 (status 2: ./lethe --help)\n"
[ "$each" -lt 50 ] || fail "refusing words takes $each ms of processor"
pass "$calls calls said what they should and made nothing, and refusing words takes $each ms of processor"
