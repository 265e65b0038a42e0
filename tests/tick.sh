#!/bin/sh
# `lethe DIR tick`, `due` and `erase-prefix`: what they print, keep and delete, and what they refuse. The clock is a false one: a stand-in for the command date,
# first on PATH, which shows the seconds of a file. In the script `lethe` nothing is said for tests.
# The options of the stores are several words.
# shellcheck disable=SC2086
# shellcheck source=tests/common.sh
. "$(dirname -- "$0")/common.sh"
needs_program
needs sha256sum flock awk od
bin=$work/bin store=$work/here/clients kept=$work/here/clients.ticks
mkdir "$bin" "$work/here"
real=$(command -v date)
cat >"$bin/date" <<END
#!/bin/sh
for word in "\$@"; do [ "\$word" != -d ] || exec $real "\$@"; done
exec $real -d "@\$(cat '$work/clock')" "\$@"
END
chmod +x "$bin/date"
command=$root/lethe calls=0 options='--threshold 29'
cd "$work/here" || fail "no folder"

# day T: from now on it is that day's morning, ten minutes after midnight.
day() {
    echo $(($1 * 86400 + 600)) >"$work/clock"
}

# call WORD..: runs ./lethe over the input of the file in.
: >"$work/in"
call() {
    words=$*
    PATH=$bin:$PATH "$command" "$@" <"$work/in" >"$work/text" 2>"$work/said"
    status=$?
    calls=$((calls + 1))
}

# went STATUS PRINTED [SAID]: what the call before it gave. SAID is a piece of standard error; without one nothing is said.
went() {
    [ "$status" = "$1" ] || fail "'$words' ended with status $status, not $1: $(head -c 400 "$work/text" "$work/said")"
    printf '%b' "$2" | cmp -s - "$work/text" || fail "'$words' printed '$(head -c 400 "$work/text")'"
    if [ $# = 2 ]; then
        [ ! -s "$work/said" ] || fail "'$words' says '$(head -c 400 "$work/said")'"
    else
        grep -qF -- "$3" "$work/said" || fail "'$words' says '$(head -c 400 "$work/said")', not '$3'"
    fi
}

# script LINE..: carries these lines out over the store, by hand.
script() {
    printf '%s\n' "$@" | "$command" "$store" run $options >"$work/answers" || fail "the lines '$*' ended with status $?"
}

# clock_is T: what the store's clock shows.
clock_is() {
    script '1 stat'
    grep -q " clock $1 " "$work/answers" || fail "behind '$words' the clock isn't $1: $(cat "$work/answers")"
}

# ticked N T C FROM: the call before it made the tick of time T as change N, and kept certificate C with its manifest; before it the clock showed FROM.
ticked() {
    name=$(cd "$kept" && ls ./*-cert-"$3".txt) || fail "'$words' kept no certificate $3: $(cat "$work/text" "$work/said")"
    name=${name#./} name=${name%.txt}
    digest=$(sha256sum <"$kept/$name.manifest" | cut -d ' ' -f 1)
    line="1 ok $1 clock $2 cert $3 before $(($2 - 29)) sha256 $digest"
    went 0 "$line\n"
    moment=$(PATH=$bin:$PATH date -u +%Y-%m-%dT%H:%M:%SZ)
    manifest=$(cd "$store" && ls m-*)
    printf '%s\n' "$line" "date $moment" "unit day" "clock $4" "manifest $name.manifest $manifest" "store $store" | cmp -s - "$kept/$name.txt" ||
        fail "'$words' kept '$(cat "$kept/$name.txt")'"
    [ "$name" = "$(echo "$moment" | tr -d ':-')-cert-$3" ] || fail "'$words' kept $name"
}

# shown_as INDENT FIRST LAST: what docs/COMMANDS.md shows, so far indented, from a line with that front to one with the other.
shown_as() {
    sed -n "/^$1$2/,/^$1$3/s/^$1//p" "$root/docs/COMMANDS.md"
}

# names: those of all that is kept.
names() {
    find "$kept" -type f -printf '%f\n' | sort
}

# unchanged: takes what the store and what is kept have now; same: they have it still.
unchanged() {
    listing "$work/here" >"$work/before"
}

same() {
    listing "$work/here" >"$work/after"
    cmp -s "$work/before" "$work/after" || fail "'$words' changed $(diff "$work/before" "$work/after" | head -n 5)"
}

# Words that are refused, with their reason, before anything is made.
refuse_words() {
    unchanged
    while IFS='|' read -r line reason; do
        eval "call $line"
        went 2 'bad words\n' "lethe: $reason (status 2: ./lethe --help)"
        eval "call --quiet $line"
        went 2 'bad words\n'
        same
    done <<'END'
clients tick --unit|--unit has no value
clients tick --unit week|--unit week: --unit is day, hour or second
clients tick --unit day --unit day|--unit is given twice
clients tick --jump --unit day --jump|--jump is given twice
clients tick --unit day --yes|--yes is no option: ./lethe --help lists them
clients tick --unit day --ratio 17|--ratio 17: --ratio is a number from 2 to 16
clients tick --threshold --jump|--threshold --jump: --threshold is a number from 1 to 1099511627776
clients tick 20788|20788 is no option: ./lethe --help lists them
clients due --jump|--jump is no option: ./lethe --help lists them
-x tick --unit day|-x is no folder and no option of this command: ./lethe --help lists them
clients erase-prefix|erase-prefix has no prefix: ./lethe DIR erase-prefix PREFIX; one that begins with a hyphen is written =HEX
clients erase-prefix --yes|erase-prefix has no prefix: ./lethe DIR erase-prefix PREFIX; one that begins with a hyphen is written =HEX
clients erase-prefix -a|-a is no option: ./lethe --help lists them
clients erase-prefix a b|b is no option: ./lethe --help lists them
clients erase-prefix ''|each key begins with an empty prefix: to delete a whole store remove its folder
clients erase-prefix = --yes|each key begins with an empty prefix: to delete a whole store remove its folder
clients erase-prefix =6|=6: behind = stand pairs of lower-case hexadecimal digits
clients erase-prefix =6G|=6G: behind = stand pairs of lower-case hexadecimal digits
clients erase-prefix "$(printf '%0256d' 0)"|the prefix has 256 bytes, and a key has 255 at most
END
}

# A folder without a store is refused, with or without --existing, and none is made.
refuse_folders() {
    unchanged
    for line in 'none tick --unit day' '--existing none tick --unit day' 'none due' 'none erase-prefix a --yes' "$work tick --unit day"; do
            call $line
        went 10 'bad folder\n' 'there is no store in '
        same
    done
    call "$(printf 'no\nne')" tick --unit day
    went 10 'bad folder\n' 'there is no store in no?ne'
    same
}

# The first tick needs a unit, may jump from 0, and keeps what it should; what comes behind it doesn't need the unit.
tick_daily() {
    script '1 put a 5 x' '1 del a'
    day 20788
    call clients tick $options
    went 2 'bad words\n' '--unit day, --unit hour or --unit second has to be said once'
    call clients tick --unit day
    went 9 'other config kept threshold=29 ratio=4 levels=3 page=64 tile=4 file=8 buffer=512 pick=so asked threshold=1000 ratio=4 levels=3 page=64 tile=4 file=8 buffer=512 pick=so\n' 'run with --threshold 29'
    [ ! -e "$kept" ] || fail "a refused tick left $kept"
    call clients tick --unit day $options
    ticked 3 20788 1 0
    shown_as '      ' '1 ok 3 ' 'store ' | sed "s|^store .*|store $store|" | cmp -s - "$kept/$name.txt" || fail "docs/COMMANDS.md shows another certificate than $(cat "$kept/$name.txt")"
    grep -qFx "    $line" "$root/docs/COMMANDS.md" || fail "docs/COMMANDS.md doesn't show $line"
    [ "$(stat -c '%a' "$kept" "$kept/$name.txt" "$kept/$name.manifest" "$kept/unit" | tr '\n' ' ')" = "700 600 600 600 " ] || fail "modes of $kept"
    [ "$(cat "$kept/unit")" = day ] || fail "the unit is noted as $(cat "$kept/unit")"
    day 20789
    call ./clients/ tick $options
    ticked 4 20789 2 20788
    # Once more on that day: it is a tick as any other.
    echo $((20789 * 86400 + 700)) >"$work/clock"
    ln -s clients link
    call --existing link tick --unit day $options
    ticked 5 20789 3 20789
    rm link
    [ "$(find "$kept" -type f | wc -l)" = 7 ] || fail "$kept has $(ls -A "$kept")"
    # Changes by others between the look and the tick are seen by their number.
    script '1 tick 20790' '1 del b'
    day 20790
    call clients tick $options
    ticked 8 20790 5 20790
}

# What is refused leaves the clock as it was, and keeps nothing.
refuse_ticks() {
    unchanged
    for unit in hour second; do
        call clients tick --unit $unit $options
        went 9 "other unit kept day asked $unit\n" "the clock of clients counts by the day, as $kept/unit says: take --unit day"
        call --quiet clients due --unit $unit $options
        went 9 "other unit kept day asked $unit\n"
    done
    same
    names >"$work/kept"
    day 20820
    call --quiet clients tick $options
    went 1 '' "the store's clock shows 20790 2026-12-03, and the calendar 20820 2027-01-02, by more than the threshold of 29 later, so no tick was made"
    clock_is 20790
    day 20700
    call clients tick $options
    went 20 '1 backwards 20790\n' "the store's clock shows 20790 2026-12-03, which is later than the calendar's 20700 2026-09-04, so no tick was made"
    clock_is 20790
    call --quiet clients tick $options
    went 20 '1 backwards 20790\n'
    for told in '' '-86400 1969-12-31T00:00:00Z' 'soon' '99999999999999 x'; do
        printf '#!/bin/sh\necho "%s"\n' "$told" >"$bin/date.bad"
        chmod +x "$bin/date.bad"
        mkdir -p "$work/bad" && mv "$bin/date.bad" "$work/bad/date"
        words="a clock of '$told'"
        PATH=$work/bad:$PATH "$command" clients tick $options >"$work/text" 2>"$work/said"
        status=$?
        went 1 '' "the machine's clock shows no time from 1970 to 9999: $told"
    done
    echo week >"$kept/unit"
    call clients tick $options
    went 1 '' "the file $kept/unit should say day, hour or second"
    echo day >"$kept/unit"
    names | cmp -s - "$work/kept" || fail "what was refused left $(ls -A "$kept")"
    # By just a threshold it isn't far, and farther with --jump.
    clock_is 20790
    day 20819
    call clients tick $options
    ticked 9 20819 6 20790
    day 21000
    call clients tick --jump $options
    ticked 10 21000 7 20819
}

# A tick in another process, a run, and what comes between a tick and its copy.
tick_at_once() {
    flock "$kept" sleep 3 &
    sleep 0.5
    call clients tick $options
    went 10 'bad folder\n' 'another tick or due of clients is under way: wait until it ends'
    call clients due $options
    went 10 'bad folder\n' 'another tick or due of clients is under way: wait until it ends'
    wait
    mkfifo "$work/script"
    "$program" clients run $options <"$work/script" >"$work/held" &
    exec 3>"$work/script"
    sleep 1
    call clients tick $options
    went 10 'bad folder\n' 'another process holds the folder clients: wait until it ends'
    exec 3>&-
    wait
    for turn in 1 2 3 4 5 6 7 8; do
        PATH=$bin:$PATH "$command" clients tick $options >"$work/text.$turn" 2>/dev/null &
        echo '1 stat' | "$command" --quiet clients run $options >/dev/null
    done
    wait
    digests
    cat "$work"/text.? | grep -q '^1 ok ' || call clients tick $options
    ! names | grep -q '^\.' || fail "ticks at once left $(ls -A "$kept")"
}

# Runs that replace the manifest between a tick and its copy, as often as a file says, by a stand-in that runs the program twice.
tick_again() {
    stand_in
    cat >"$work/stand/crates/lethe_cli/out/lethe_cli" <<END
#!/bin/sh
read -r line
echo "\$line" | '$program' "\$@"
status=\$?
left=\$(cat '$work/between')
case \$line-\$left in
*tick*-[1-9]*) echo '1 stat' | '$program' "\$@" >/dev/null; echo \$((left - 1)) >'$work/between' ;;
*stat-by*) printf '1 tick 21001\\n1 del q\\n' | '$program' "\$@" >/dev/null; echo 0 >'$work/between' ;;
esac
exit \$status
END
    day 21001
    echo 0 >"$work/between"
    script '1 stat'
    number=$(sed -n 's/^1 at \([0-9]*\) .*/\1/p' "$work/answers")
    certificate=$(cat "$kept"/*.txt | sed -n 's/.* cert \([0-9]*\) .*/\1/p' | sort -n | tail -n 1)
    # A tick and a delete by hand between the look and the tick: the delete was behind a later clock than the one that the look showed.
    echo by hand >"$work/between"
    call clients tick $options
    ticked $((number + 3)) 21001 $((certificate + 2)) 21001
    echo 3 >"$work/between"
    call clients tick $options
    ticked $((number + 7)) 21001 $((certificate + 6)) 21001
    names >"$work/kept"
    echo 4 >"$work/between"
    call clients tick $options
    went 22 "$(cat "$work/text")\n" "the manifest that the certificate names couldn't be copied to $kept; tick again for another certificate"
    grep -qx "1 ok $((number + 11)) clock 21001 cert $((certificate + 10)) before 20972 sha256 [0-9a-f]*" "$work/text" || fail "it printed $(cat "$work/text")"
    names | cmp -s - "$work/kept" || fail "without a manifest it left $(names)"
    rm -r false
    command=$root/lethe
}

# digests: each certificate that is kept has its own manifest beside it.
digests() {
    for text in "$kept"/*.txt; do
        digest=$(head -n 1 "$text" | sed 's/.* //')
        [ "$digest" = "$(sha256sum <"${text%.txt}.manifest" | cut -d ' ' -f 1)" ] || fail "the manifest beside $text isn't that of the certificate"
    done
}

# Where certificates can't be written no tick is made.
refuse_writing() {
    for how in file denied full; do
        [ "$how" = file ] || [ "$(id -u)" = 0 ] || continue
        rm -rf clients clients.ticks
        script '1 put a 5 x' '1 del a'
        case $how in
        file)
            : >clients.ticks
            call clients tick --unit day $options
            went 1 '' "the folder $kept, where certificates are kept, couldn't be made, so no tick was made"
            rm clients.ticks
            ;;
        denied) tick_denied || continue ;;
        full) tick_full || continue ;;
        esac
        clock_is 0
    done
}

# tick_denied: another user, who owns the store alone, has no right beside it, and then none in what is kept.
tick_denied() {
    command -v setpriv >/dev/null || return 1
    chmod 755 "$work" "$work/here" "$bin"
    chmod 644 "$work/clock"
    chown -R 65534:65534 clients
    cp "$program" "$work/program"
    as_other clients tick --unit day $options
    went 1 '' "the folder $kept, where certificates are kept, couldn't be made, so no tick was made"
    mkdir clients.ticks
    as_other clients tick --unit day $options
    went 1 '' "certificates couldn't be written to the folder $kept, so no tick was made"
    chmod 700 clients.ticks
    as_other clients tick --unit day $options
    went 1 '' "the folder $kept, where certificates are kept, couldn't be read"
    [ -z "$(ls -A clients.ticks)" ] || fail "a tick by another user left $(ls -A clients.ticks)"
    chown -R 0:0 clients
    rmdir clients.ticks
}

# as_other WORD..: the same as another user, to whom the sources may be barred, so a copy of what is needed lies here.
as_other() {
    copy_command "$work/copy"
    [ -f "$work/copy/crates/lethe_cli/out/lethe_cli" ] || cp "$program" "$work/copy/crates/lethe_cli/out/lethe_cli"
    chmod -R a+rX "$work/copy"
    words=$*
    PATH=$bin:$PATH setpriv --reuid=65534 --regid=65534 --clear-groups "$work/copy/lethe" "$@" <"$work/in" >"$work/text" 2>"$work/said"
    status=$?
    calls=$((calls + 1))
}

# copy_command FOLDER: a copy of the command, without sources, so each program there is as new as they are.
copy_command() {
    mkdir -p "$1/crates/lethe_cli/out" "$1/tools"
    cp "$root/lethe" "$root/CHANGELOG.md" "$root/crates.txt" "$1/"
    cp "$root"/tools/lethe-* "$1/tools/"
}

# tick_full: what is kept lies on a file system that is full.
tick_full() {
    mkdir clients.ticks
    mount -t tmpfs -o size=16k lethe_tick clients.ticks 2>/dev/null || { rmdir clients.ticks; return 1; }
    trap 'umount "$kept" 2>/dev/null; rm -rf "$work"' EXIT
    dd if=/dev/zero of=clients.ticks/rest bs=4096 count=4 2>/dev/null
    call clients tick --unit day $options
    went 1 '' "certificates couldn't be written to the folder $kept, so no tick was made: look for its rights, and for a full disk"
    [ "$(ls -A clients.ticks)" = rest ] || fail "on a full disk a tick left $(ls -A clients.ticks)"
    umount clients.ticks
    rmdir clients.ticks
}

# stand_in: a copy of the command with a program that answers stat with the clock 20788, and a tick with the text and the status of two files; it makes no manifest.
stand_in() {
    copy_command "$work/stand"
    mkdir -p "$work/here/false"
    : >"$work/here/false/g-00000000000000000002"
    echo none >"$work/here/false/m-00000000000000000002"
    cat >"$work/stand/crates/lethe_cli/out/lethe_cli" <<END
#!/bin/sh
read -r line
if [ "\$line" = '1 stat' ]; then
    echo '1 at 4 stat clock 20788 pins 0 pending 0 files 0 tombs 0'
    exit 0
fi
cat '$work/answer'
exit "\$(cat '$work/ends')"
END
    chmod +x "$work/stand/crates/lethe_cli/out/lethe_cli"
    command=$work/stand/lethe
}

# Answers that no tick of a store gives, or seldom: each row has the program's status and line, and what becomes of them.
answers() {
    stand_in
    day 20789
    # shellcheck disable=SC2034
    zeros=$(printf '%064d' 0)
    digest=$(sha256sum <false/m-00000000000000000002 | cut -d ' ' -f 1)
    while IFS='|' read -r ends answer wanted said; do
        eval "answer=\"$answer\" said=\"$said\""
        echo "$ends" >"$work/ends"
        printf '%b' "$answer" >"$work/answer"
        call false tick --unit day $options
        if [ "$wanted" = 1 ]; then answer=; fi
        went "$wanted" "$answer" "$said"
        case $wanted in
        22)
            [ "$(ls -A false.ticks)" = unit ] || fail "'$answer' left $(ls -A false.ticks)"
            rm -r false.ticks
            ;;
        *) [ ! -e false.ticks ] || fail "'$answer' left $(ls -A false.ticks)" ;;
        esac
    done <<'END'
0|1 pinned 1 limit 20800\n|21|a pin is held, so no tick was made: let it go, and tick again
0|1 ok 5 clock 20789\n|22|a certificate of all that was erased at 20760 or before was due, and didn't come
0|1 ok 5 clock 20789 cert 1 before 20759 sha256 $zeros\n|22|a certificate of all that was erased at 20760 or before was due, and didn't come
0|1 ok 5 clock 20789 cert 1 before 20760 sha256 $zeros\n|22|the manifest that the certificate names couldn't be copied to $work/here/false.ticks; tick again
0|hello\n|1|'1 tick 20789' is answered 'hello'
0||1|'1 tick 20789' is answered ''
6|1 fault 5 before 0 after 1\n|6|the store answers '1 fault 5 before 0 after 1' (status 6: ./lethe --help)
END
    echo 0 >"$work/ends"
    echo "1 ok 5 clock 20789 cert 1 before 20760 sha256 $digest" >"$work/answer"
    call false tick --unit day $options
    went 0 "$(cat "$work/answer")\n"
    # One of that name is there, and stays; standard output that is full.
    call false tick --unit day $options
    went 22 "$(cat "$work/answer")\n" "the certificate couldn't be written to the folder $work/here/false.ticks"
    day 20790
    echo "1 ok 5 clock 20790 cert 2 before 20761 sha256 $digest" >"$work/answer"
    PATH=$bin:$PATH "$command" false tick $options >/dev/full 2>"$work/said"
    [ "$?-$(wc -l <"$work/said")-$(find false.ticks -name '*-cert-2.txt' | wc -l)" = 5-1-1 ] || fail "with standard output full it says $(cat "$work/said")"
    rm "$work/stand/tools/lethe-tick"
    call false tick
    went 1 '' "the file $work/stand/tools/lethe-tick isn't there"
    rm -rf false false.ticks
    command=$root/lethe
}

# Without a program, by a stand-in for rt that runs the program as `rt try` does: the same lines and certificates, behind a word on standard error.
unproved() {
    copy_command "$work/sources"
    mkdir -p "$work/rt"
    cat >"$work/rt/rt" <<END
#!/bin/sh
while [ "\$1" != -- ]; do shift; done
shift
'$program' "\$@"
echo "run=ended status=\$? runners=1 proved=no" >&2
END
    chmod +x "$work/rt/rt"
    command=$work/sources/lethe
    rm -rf clients clients.ticks
    printf '1 put a:1 5 x\n1 del a:2\n1 put a:3 5 x\n' | "$program" clients run $options >"$work/answers" || fail "puts ended with status $?"
    day 20788
    slow="lethe: the proved program isn't built, so rt try builds the same sources and runs them unproved"
    PATH=$work/rt:$PATH
    call clients tick --unit day $options
    grep -q '^1 ok 4 clock 20788 cert 1 ' "$work/text" || fail "'$words' printed $(cat "$work/text" "$work/said")"
    [ "$(grep -c "^$slow" "$work/said")-$(wc -l <"$work/said")" = 2-2 ] || fail "'$words' says $(cat "$work/said")"
    call clients erase-prefix a: --yes $options
    went 0 'prefix a: keys 2\ndeleted 2 from 5 to 6 clock 20788 due 20817 2026-12-30\n' "$slow"
    day 20700
    call --quiet clients tick $options
    went 20 '1 backwards 20788\n' "$slow"
    PATH=${PATH#"$work/rt:"}
    digests
    command=$root/lethe
}

# Names of folders that are none of the usual ones: what is kept lies beside each, by its true name.
odd_names() {
    day 20788
    end='
'
    for name in 'a b' "two
lines" "line$end" '-x' '*'; do
        mkdir -p "odd/$name"
        for dir in "odd/$name" .; do
            cd "$work/here" || fail "no folder"
            [ "$dir" != . ] || cd "odd/$name" || fail "no folder"
            "$command" "$dir" run $options <"$work/in" || fail "a new store in '$name'"
            call "$dir" tick --unit day $options
            [ "$status" = 0 ] || fail "'$words' ended with status $status: $(cat "$work/said")"
        done
        cd "$work/here" || fail "no folder"
        [ "$(find "odd/$name.ticks" -name '*-cert-[12].txt' | grep -c 'cert-[12].txt$')" = 2 ] || fail "beside '$name' there is $(ls "odd")"
    done
    cd odd || fail "no folder"
    call -x tick --unit day $options
    went 2 'bad words\n' '-x is no folder'
    call ./-x due $options
    [ "$status" = 0 ] || fail "'$words' ended with status $status: $(cat "$work/said")"
    cd "$work/here" || fail "no folder"
}

# Other units, and a threshold that the clock hasn't come to: no certificate is due then.
other_units() {
    for row in 'hour 3600 498919 2026-12-01T07:00:00Z' 'second 1 1796110816 2026-12-01T07:40:16Z'; do
            set -- $row
        rm -rf clients clients.ticks
        script '1 put a 5 x'
        echo $(($3 * $2 + $2 - 1)) >"$work/clock"
        call clients tick --unit "$1" $options
        grep -q "^1 ok 2 clock $3 cert 1 before $(($3 - 29)) " "$work/text" || fail "'$words' printed $(cat "$work/text" "$work/said")"
        digests
        call clients due $options
        grep -qx "clock $3 $4" "$work/text" || fail "'$words' printed $(cat "$work/text")"
    done
    rm -rf young young.ticks
    "$command" young run --threshold 30000 <"$work/in" || fail "a new store"
    day 20788
    call young tick --unit day --threshold 30000
    went 0 '1 ok 1 clock 20788\n'
    [ "$(ls -A young.ticks)" = unit ] || fail "without a certificate young.ticks has $(ls -A young.ticks)"
    call young due --threshold 30000
    went 0 'clock 20788 2026-12-01\ntoday 20788 2026-12-01\ncertificate none\npending 0 tombs 0\nwaits 20788 2026-12-01 changes 1 due 50788 2109-01-20\n'
}

# What waits: by hand, by certificates, with what isn't this store's among them.
tell_what_waits() {
    rm -rf clients clients.ticks
    script '1 put a 5 x' '1 del a'
    call clients due $options
    went 0 'clock 0\ncertificate none\npending 0 tombs 0\nwaits 0 changes 2 due 29\n'
    day 20788
    call clients due --unit day $options
    went 0 'clock 0 1970-01-01\ntoday 20788 2026-12-01\ncertificate none\npending 0 tombs 0\nwaits 0 1970-01-01 changes 2 due 29 1970-01-30 now\n'
    call clients tick --unit day $options
    ticked 3 20788 1 0
    first='certificate 1 before 20759 2026-11-02 kept 2026-12-01T00:10:00Z'
    call clients due $options
    went 0 "clock 20788 2026-12-01\ntoday 20788 2026-12-01\n$first\npending 0 tombs 0\nnothing waits\n"
    script '1 put b 5 x'
    day 20790
    call clients tick $options
    ticked 5 20790 2 20788
    script '1 del b' '1 del x'
    call clients due $options
    went 0 "$(shown_as '    ' 'clock 20790' 'waits 20790')\n"
    script '1 tick 20795' '1 del c'
    cp -r clients copy
    day 20818
    call clients due $options
    second='certificate 2 before 20761 2026-11-04 kept 2026-12-03T00:10:00Z'
    waits='waits 20788 2026-12-01 changes 1 due 20817 2026-12-30 now\nwaits 20795 2026-12-08 changes 4 due 20824 2027-01-06\n'
    went 0 "clock 20795 2026-12-08\ntoday 20818 2026-12-31\n$second\npending 0 tombs 0\n$waits"
    # A backup comes back: the certificates that were kept since are none of its own, the one of a later change as little as the one of a later time.
    day 20795
    call clients tick $options
    ticked 10 20795 4 20795
    day 20818
    call clients tick $options
    ticked 11 20818 5 20795
    rm -r clients
    mv copy clients
    call clients due $options
    went 0 "clock 20795 2026-12-08\ntoday 20818 2026-12-31\n$second\npending 0 tombs 0\n$waits"
    echo cut >"$kept/20270101T000000Z-cert-9.txt"
    call clients due $options
    went 0 "clock 20795 2026-12-08\ntoday 20818 2026-12-31\n$second\npending 0 tombs 0\n$waits"
    # Up to the next tick one of the lost days may count whose time isn't later, which says no more than the store's own tick of that time; none of a later time.
    script '1 put d 5 x' '1 put d 5 y' '1 put d 5 z'
    call clients due $options
    fourth='certificate 4 before 20766 2026-11-09 kept 2026-12-08T00:10:00Z'
    went 0 "clock 20795 2026-12-08\ntoday 20818 2026-12-31\n$fourth\npending 0 tombs 0\n${waits}waits 20795 2026-12-08 changes 2 due 20824 2027-01-06\n"
}

# put_keys KEY..: a new store with these keys.
put_keys() {
    rm -rf clients clients.ticks
    for key in "$@"; do printf '1 put %s 5 x\n' "$key"; done >"$work/puts"
    "$command" clients run $options <"$work/puts" >"$work/answers" || fail "puts ended with status $?"
}

# left KEYS: all keys that are there, by a scan and a look at the greatest of them.
left() {
    greatest="=$(printf '%0510d' 0 | tr 0 f)"
    script "1 scan =00 $greatest" "1 get $greatest"
    found=$(awk '$4 == "scan" { for (i = 6; i < NF; i += 3) printf "%s ", $i } $4 == "val" { printf "greatest " }' "$work/answers")
    [ "$found" = "$1" ] || fail "behind '$words' there are the keys $found"
}

# Prefixes of some keys, of none, of all, with bytes that are no text, and at the end of all keys.
erase_prefixes() {
    greatest="=$(printf '%0510d' 0 | tr 0 f)"
    put_keys client:1 client:18:a client:19:a client:19:b client:2 =636166c3a9 =6361c3 =61ff62 =61ff63 =ff =ff00 =ffff "$greatest" =612062 =3d61
    every='=3d61 =612062 =61ff62 =61ff63 =636166c3a9 =6361c3 client:1 client:18:a client:19:a client:19:b client:2 =ff =ff00 =ffff greatest '
    call clients erase-prefix client:19: --dry-run $options
    went 0 'prefix client:19: keys 2\nclient:19:a\nclient:19:b\n'
    left "$every"
    call --quiet clients erase-prefix client:3 --yes $options
    went 1 '' "no key of clients begins with client:3, so nothing was deleted"
    refuse_answers
    printf 'yes\n2' >"$work/in"
    call clients erase-prefix client:19: $options
    went 0 'prefix client:19: keys 2\ndeleted 2 from 16 to 17 clock 0 due 29\n' '2 keys of clients begin with client:19:, the first client:19:a, the last client:19:b'
    : >"$work/in"
    left '=3d61 =612062 =61ff62 =61ff63 =636166c3a9 =6361c3 client:1 client:18:a client:2 =ff =ff00 =ffff greatest '
    call clients erase-prefix "$(printf 'ca\303')" --yes $options
    went 0 'prefix =6361c3 keys 1\ndeleted 1 from 18 to 18 clock 0 due 29\n'
    call clients erase-prefix --yes café $options
    went 0 'prefix =636166c3a9 keys 1\ndeleted 1 from 19 to 19 clock 0 due 29\n'
    call clients erase-prefix 'a b' --yes $options
    went 0 'prefix =612062 keys 1\ndeleted 1 from 20 to 20 clock 0 due 29\n'
    call clients erase-prefix =61ff --yes $options
    went 0 'prefix =61ff keys 2\ndeleted 2 from 21 to 22 clock 0 due 29\n'
    call clients erase-prefix =3d --yes $options
    went 0 'prefix =3d keys 1\ndeleted 1 from 23 to 23 clock 0 due 29\n'
    left 'client:1 client:18:a client:2 =ff =ff00 =ffff greatest '
    call clients erase-prefix "$greatest" --dry-run $options
    went 0 "prefix $greatest keys 1\n$greatest\n"
    call clients erase-prefix =ffff --yes $options
    went 0 'prefix =ffff keys 2\ndeleted 2 from 24 to 25 clock 0 due 29\n'
    call clients erase-prefix "$(printf '\377')" --yes $options
    went 0 'prefix =ff keys 2\ndeleted 2 from 26 to 27 clock 0 due 29\n'
    # Of all keys that are there.
    day 20788
    call clients tick --unit day $options
    call clients erase-prefix c --yes $options
    went 0 'prefix c keys 3\ndeleted 3 from 29 to 31 clock 20788 due 20817 2026-12-30\n'
    left ''
}

# Answers that aren't those that are asked for delete nothing.
refuse_answers() {
    for answers in '' 'no\n' 'y\n2\n' 'yes\n' 'yes\nyes\n' 'yes\n3\n'; do
        printf '%b' "$answers" >"$work/in"
        call clients erase-prefix client:19: $options
        went 1 'prefix client:19: keys 2\n' 'nothing was deleted, since the answer isn'
    done
    left "$every"
    # What holds the folder, and other options, are told as by run.
    : >"$work/in"
    call clients erase-prefix client:19: --yes
    [ "$status-$(cut -c 1-17 "$work/text")" = '9-other config kept' ] || [ "$status" = 9 ] || fail "with other options it ended with status $status"
    left "$every"
}

# A damaged page, more keys than one script takes, a run that comes in between, and a fault in the midst, by stand-ins for the program.
erase_with_stand_ins() {
    stand_in
    cat >"$work/stand/crates/lethe_cli/out/lethe_cli" <<PROGRAM
#!/bin/sh
awk -v how="\$(cat '$work/how')" '
    / scan / && how == "damaged" { print "1 damaged page 5"; failed = 1; next }
    / scan / && how == "nothing" { next }
    / scan / && (!dels || how == "more") { printf "1 at 9 scan %d", how == "more" && dels ? 1 : 30001; for (i = 0; i < (dels ? 1 : 30001); i++) printf " key%05d 5 12_Elm_Street", i; print ""; next }
    / scan / { print "1 at 9 scan 0" }
    / stat\$/ { print "1 at 9 stat clock 7 pins 0 pending 0 files 0 tombs 0" }
    / del / && how == "fault" && ++asked > 2 { print asked == 3 ? "1 fault 12 before 0 after 1" : "1 stopped 12"; failed = 1; next }
    / del / { dels++; print "1 ok", 9 + ++count; print substr(\$3, 4) >>"$work/deleted" }
    END { exit failed ? 6 : 0 }'
PROGRAM
    erase_as damaged
    went 6 '1 damaged page 5\n' "the store answers '1 damaged page 5'"
    erase_as nothing
    went 1 '' "the keys couldn't be listed: the store answers ''"
    erase_as fault
    went 6 'prefix key keys 30001\ndeleted 2 from 10 to 11 clock 7 due 36\n1 fault 12 before 0 after 1\n' "the store answers '1 fault 12 before 0 after 1'"
    erase_as more
    went 1 'prefix key keys 30001\ndeleted 30001 from 10 to 10 clock 7 due 36\n' '1 more keys that begin with key came meanwhile: give the command again'
    erase_as whole
    went 0 'prefix key keys 30001\ndeleted 30001 from 10 to 10 clock 7 due 36\n'
    [ "$(sort -nu "$work/deleted" | wc -l)-$(wc -l <"$work/deleted")" = 30001-30001 ] || fail "of 30001 keys $(sort -nu "$work/deleted" | wc -l) were deleted"
    command=$root/lethe
}

# erase_as HOW: the call over a stand-in that is told how to answer.
erase_as() {
    echo "$1" >"$work/how"
    rm -f "$work/deleted"
    call false erase-prefix key --yes $options
}

# The lines of docs/COMMANDS.md and examples/ for cron and systemd, with the paths of this folder: cron gives a line what stands before the first %, and little
# of an environment.
scheduled() {
    rm -rf clients clients.ticks
    script '1 put a 5 x'
    day 20788
    line=$(sed -n 's/^    10 0 \* \* \* //p' "$root/docs/COMMANDS.md" | sed "s|/srv/lethe/lethe|$command|; s|/srv/clients|$store|; s/%.*//")
    words="the crontab's line"
    [ "$("$command" --help | grep -c '^    10 0 \* \* \* /srv/lethe/lethe ')-$("$command" --help | sed -n 's/^    10 0 /10 0 /p')" = "1-$(sed -n 's/^    10 0 /10 0 /p' "$root/docs/COMMANDS.md")" ] ||
        fail "--help and docs/COMMANDS.md have other lines for cron"
    (cd / && env -i HOME=/ LOGNAME=nobody SHELL=/bin/sh PATH="$bin:/usr/bin:/bin" /bin/sh -c "$line") >"$work/text" 2>"$work/said"
    status=$?
    went 0 ''
    clock_is 20788
    digests
    day 20700
    (cd / && env -i HOME=/ SHELL=/bin/sh PATH="$bin:/usr/bin:/bin" /bin/sh -c "$line") >"$work/text" 2>"$work/said"
    status=$?
    went 20 '' "the store's clock shows 20788 2026-12-01"
    day 20789
    words=$(sed -n "s|^ExecStart=/srv/lethe/lethe /srv/clients ||p" "$root/examples/lethe-tick.service")
    call "$store" $words
    ticked 3 20789 2 20788
    verify_units
}

# verify_units: systemd reads both files without a word, where it is there.
verify_units() {
    command -v systemd-analyze >/dev/null || return 0
    mkdir -p "$work/units"
    sed "s|/srv/lethe/lethe|$command|; s/^User=.*/User=$(id -un)/" "$root/examples/lethe-tick.service" >"$work/units/lethe-tick.service"
    cp "$root/examples/lethe-tick.timer" "$work/units/"
    systemd-analyze verify "$work/units/lethe-tick.service" "$work/units/lethe-tick.timer" >"$work/text" 2>&1 || fail "systemd says $(cat "$work/text")"
    ! grep -q lethe-tick "$work/text" || fail "systemd says $(cat "$work/text")"
}

script '1 put a 5 x'
refuse_words
rm -rf clients
refuse_folders
tick_daily
refuse_ticks
tick_at_once
tick_again
refuse_writing
answers
unproved
odd_names
other_units
tell_what_waits
erase_prefixes
erase_with_stand_ins
scheduled
pass "$calls calls of tick, due and erase-prefix did what they should, with a false clock"
