#!/bin/sh
# Folders as people hand them over: each row has what the folder is, the status, what is printed and the reason that is said of it. What is refused is left as
# it was. The same of standard streams that are closed, full or no file.
# Rows name variables.
# shellcheck disable=SC2034
# shellcheck source=tests/common.sh
. "$(dirname -- "$0")/common.sh"
needs_program
here=$work/here
options='--buffer 1 --page 1 --tile 1 --file 1'
all_of='1 at 3 scan 3 a 5 x b 6 y c 7 z\n'

# Another user runs the program where root does all: nothing is barred to root.
cp "$program" "$work/program" || fail "the program couldn't be copied"
chmod 755 "$work" "$work/program"
as_user=
if [ "$(id -u)" = 0 ]; then
    needs setpriv
    as_user='setpriv --reuid=65534 --regid=65534 --clear-groups'
fi

# One entry a page and a page a file, so that a few puts make each kind of object.
make_store() {
    rm -rf "$here"
    mkdir "$here"
    cd "$here" || fail "no folder"
    # shellcheck disable=SC2086
    printf '1 put a 5 x\n1 put b 6 y\n1 put c 7 z\n' | "$program" store run $options >"$work/text" || fail "the store wasn't made"
}

# object LETTER: the last object of that letter, as name, and its number, as no.
object() {
    name=$(find store -name "$1-*" -printf '%f\n' | sort | tail -n 1)
    no=$(echo "${name#?-}" | sed 's/^0*//')
}

# change FILE: changes its first byte, or gives it one.
change() {
    python3 - "$1" <<'PYTHON'
import sys
path = sys.argv[1]
with open(path, "rb") as file:
    data = file.read()
with open(path, "wb") as file:
    file.write(bytes([data[0] ^ 1]) + data[1:] if data else b"x")
PYTHON
}

# begin NAME..: a folder that holds these empty files alone.
begin() {
    rm -rf store
    mkdir store
    for one in "$@"; do : >"store/$one"; done
}

# prepare WHAT: makes what a row speaks of out of a store, and sets the folder to be run and how.
prepare() {
    make_store
    folder=store
    how=
    asked=$options
    [ "$1" != "asked otherwise" ] || asked="$options --threshold 30 --pick sd"
    case $1 in
    "a store" | "asked otherwise") ;;
    held) hold ;;
    "no folder") rm -rf store ;;
    "an empty folder") begin ;;
    "a plain file") rm -rf store && : >store ;;
    "no parent") folder=none/store ;;
    "no parent, of two lines") folder="no
ne/store" ;;
    "a plain file as parent") : >none && folder=none/store ;;
    "no name") folder= ;;
    "the name .") cd store && folder=. ;;
    "a link to a store") mv store moved && ln -s moved store ;;
    "a link to nothing") rm -rf store && ln -s nowhere store ;;
    "a foreign file") echo foreign >store/note.txt ;;
    "a foreign name of two lines") echo foreign >"store/note
.txt" ;;
    "a sub-folder") mkdir store/lost+found ;;
    "a sub-folder with an object's name") mkdir store/p-00000000000000000099 ;;
    "a link as object") ln -s /dev/null store/p-00000000000000000099 ;;
    "a pipe as object") mkfifo store/p-00000000000000000099 ;;
    "mode "*) barred "${1#mode }" store ;;
    "parent of mode "*) barred "${1#parent of mode }" . ;;
    "no store, parent of mode "*) rm -rf store && barred "${1#no store, parent of mode }" . ;;
    "without "?) object "${1#without }" && rm "store/$name" ;;
    "changed "?) object "${1#changed }" && change "store/$name" ;;
    "cut "?) object "${1#cut }" && truncate -s -1 "store/$name" ;;
    "begun") begin s-00000000000000000001 m-00000000000000000002 ;;
    "alone "*) begin "${1#alone }" ;;
    *) fail "no row is prepared as '$1'" ;;
    esac
}

# hold: has another process wait for its script with the folder in its hands.
hold() {
    rm -f "$work/script"
    mkfifo "$work/script"
    # shellcheck disable=SC2086
    "$work/program" store run $options <"$work/script" >"$work/held" &
    holder=$!
    exec 3>"$work/script"
    until readlink "/proc/$holder/fd/"* | grep -qx "$here/store"; do :; done
    sleep 0.2
}

# barred MODE FOLDER: has another user run it, who has no more than the mode gives.
barred() {
    how=$as_user
    if [ -n "$as_user" ]; then chown -R 65534:65534 .; fi
    chmod "$1" "$2"
}

# went STATUS PRINTED SAID: runs a scan over the folder, and compares; SAID is all of standard error.
went() {
    prepare "$what"
    listing "$here" >"$work/before"
    # shellcheck disable=SC2086
    echo "$all" | $how "$work/program" "$folder" run $asked >"$work/text" 2>"$work/said"
    status=$?
    [ "$status" = "$1" ] || fail "$what: status $status, '$(head -c 300 "$work/text")', '$(head -c 600 "$work/said")'"
    printf '%b' "$2" | sed "s/NO/$no/" | cmp -s - "$work/text" || fail "$what: '$(head -c 300 "$work/text")' was printed"
    printf '%s' "$3" | sed "s/NO/$no/; s/NAME/$name/" | cmp -s - "$work/said" || fail "$what: it says '$(head -c 600 "$work/said")'"
    if [ "$status" != 0 ]; then
        listing "$here" >"$work/after"
        cmp -s "$work/before" "$work/after" || fail "$what: the folder was changed"
    fi
    chmod 755 "$here"
    [ "$what" != held ] || { exec 3>&-; wait "$holder"; }
}

rows=0 no='' name=''
away='which is no file of a store: move it away'
plain='which is a link, a pipe or a device and no plain file: move it away'
gone='is missing, cut or changed: there is no repair, so restore the folder from a backup (docs/GUIDE.md, When something goes wrong)'
tidied='and no gate, the empty file g-..: it was tidied away, or a copy left it out; restore the folder from a backup (docs/GUIDE.md, When something goes wrong)'
denied='Permission denied (os error 13)'
missing='No such file or directory (os error 2)'
config='ratio=4 levels=3 page=1 tile=1 file=1 buffer=1'
while IFS='|' read -r what status printed reason; do
    eval "printed=\"$printed\" reason=\"$reason\""
    unset LETHE_EXPLAIN
    went "$status" "$printed" ''
    export LETHE_EXPLAIN=yes
    went "$status" "$printed" "${reason:+lethe: $reason (status $status: ./lethe --help)
}"
    rows=$((rows + 1))
done <<'END'
a store|0|$all_of|
no folder|0|1 at 0 scan 0\n|
an empty folder|0|1 at 0 scan 0\n|
a plain file|10|bad folder\n|the folder store couldn't be opened: Not a directory (os error 20)
no parent|10|bad folder\n|the folder none/store couldn't be made, since none isn't there: $missing
no parent, of two lines|10|bad folder\n|the folder no?ne/store couldn't be made, since no?ne isn't there: $missing
a plain file as parent|10|bad folder\n|the folder none/store couldn't be made: Not a directory (os error 20)
no name|10|bad folder\n|the folder's name is empty
the name .|0|$all_of|
a link to a store|0|$all_of|
a link to nothing|10|bad folder\n|the folder store couldn't be opened: $missing
a foreign file|10|bad folder\n|the folder store holds note.txt, $away
a foreign name of two lines|10|bad folder\n|the folder store holds note?.txt, $away
a sub-folder|10|bad folder\n|the folder store holds lost+found, $away
a sub-folder with an object's name|10|bad folder\n|the folder store holds p-00000000000000000099, $away
a link as object|10|bad folder\n|the folder store holds p-00000000000000000099, $plain
a pipe as object|10|bad folder\n|the folder store holds p-00000000000000000099, $plain
held|10|bad folder\n|another process holds the folder store: wait until it ends
mode 0300|10|bad folder\n|the folder store couldn't be opened: $denied
mode 0500|6|open fault before 0 after 1\n|the store couldn't be opened, since the file system refused a call: look for a full disk, for rights and for errors of the device (docs/GUIDE.md, When something goes wrong)
mode 0600|10|bad folder\n|the file g-00000000000000000009 of the folder store couldn't be looked at: $denied
mode 0000|10|bad folder\n|the folder store couldn't be opened: $denied
parent of mode 0300|10|bad folder\n|the folder that store lies in couldn't be opened and synced: $denied
parent of mode 0500|0|$all_of|
no store, parent of mode 0500|10|bad folder\n|the folder store couldn't be made: $denied
asked otherwise|9|other config kept threshold=1000 $config pick=so asked threshold=30 $config pick=sd\n|the store was made with other options: run with --threshold 1000 --pick so in place of --threshold 30 --pick sd
without m|8|damaged manifest NO\n|manifest NO, the file NAME, $gone
without s|8|damaged segment NO\n|segment NO, the file NAME, $gone
without f|8|damaged file NO\n|file NO, the file NAME, $gone
without p|8|damaged page NO\n|page NO, the file NAME, $gone
without g|10|bad folder\n|the folder store holds m-00000000000000000009 $tidied
changed m|8|damaged manifest NO\n|manifest NO, the file NAME, $gone
changed s|8|damaged segment NO\n|segment NO, the file NAME, $gone
changed f|8|damaged file NO\n|file NO, the file NAME, $gone
changed p|8|damaged page NO\n|page NO, the file NAME, $gone
changed g|0|$all_of|
cut m|8|damaged manifest NO\n|manifest NO, the file NAME, $gone
cut s|0|$all_of|
cut f|8|damaged file NO\n|file NO, the file NAME, $gone
cut p|8|damaged page NO\n|page NO, the file NAME, $gone
begun|0|1 at 0 scan 0\n|
alone s-00000000000000000003|10|bad folder\n|the folder store holds s-00000000000000000003 $tidied
alone m-00000000000000000003|10|bad folder\n|the folder store holds m-00000000000000000003 $tidied
alone f-00000000000000000001|10|bad folder\n|the folder store holds f-00000000000000000001 $tidied
alone p-00000000000000000000|10|bad folder\n|the folder store holds p-00000000000000000000 $tidied
END

# A gate that is gone is made again by hand, as docs/GUIDE.md has it.
prepare "without g"
: >"store/g-$(find store -name 'm-*' -printf '%f\n' | sort | tail -n 1 | cut -c 3-)"
# shellcheck disable=SC2086
[ "$(echo "$all" | "$program" store run $options)" = "1 at 3 scan 3 a 5 x b 6 y c 7 z" ] || fail "with a gate made anew the store isn't what it was"

# Standard streams: each row has what becomes of them, a script, the status, what is printed and the reason, where standard error is open.
sunk="standard output couldn't be written: what was printed was carried out, and perhaps more"
while IFS='|' read -r streams script status printed reason; do
    for explains in '' yes; do
        make_store
        unset LETHE_EXPLAIN
        if [ -n "$explains" ]; then export LETHE_EXPLAIN=yes; fi
        listing store >"$work/before"
        : >"$work/text"
        : >"$work/said"
        eval "printf '%b\n' '$script' | \"\$program\" store run $options >'$work/text' 2>'$work/said' $streams"
        went=$?
        [ "$went" = "$status" ] || fail "with $streams status $went"
        [ "$(cat "$work/text")" = "$printed" ] || fail "with $streams '$(cat "$work/text")' was printed"
        eval "said=\"${reason:+lethe: $reason (status $status: ./lethe --help)}\""
        [ -n "$explains" ] || said=
        [ "$(cat "$work/said")" = "$said" ] || fail "with $streams it says '$(cat "$work/said")'"
        listing store >"$work/after"
        case $status in [05]) ;; *) cmp -s "$work/before" "$work/after" || fail "with $streams the folder was changed" ;; esac
    done
    rows=$((rows + 1))
done <<'END'
<&-|1 get a|4||standard input couldn't be read, so nothing was carried out
</|1 get a|4||standard input couldn't be read, so nothing was carried out
>&-|1 put d 8 w|5||$sunk
>/dev/full|1 put d 8 w|5||$sunk
2>&-|1 put d 8 w|0|1 ok 4|
2>/dev/full|1 put d 8 w|0|1 ok 4|
2>&-|1 put d 8|3|line 1 bad count|
2>/dev/full|1 put d 8|3|line 1 bad count|
2>&- <&-|1 get a|4||
<&- >&- 2>&-|1 get a|4||
END
pass "$rows folders and streams gave what they should, and what was refused was left as it was"
