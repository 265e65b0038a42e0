#!/bin/sh
# What stands in a folder beside files, who may use it, and what becomes of its path: each gives the named refusal or goes on, and
# nothing outside the folder is read or written. It needs root, for a device and for another user.
. "$(dirname -- "$0")/common.sh"
[ "$(id -u)" = 0 ] || fail "it needs root, to make a device and to be another user"
umask 000
store=$work/store
outside=$work/outside
text=$work/text
checks=0
# What stands before the program's name in a run that waits.
how=

# Each name in a folder, what it is, and the bytes of its files.
listing() {
    (cd "$1" && find . -printf '%P %y %s %m %T@\n' | sort && find . -type f -size -1G -exec sha256sum {} + | sort)
}

# went STATUS TEXT WHAT: what the run before it gave.
went() {
    [ "$status" = "$1" ] || fail "$3: status $status, '$(head -c 200 "$text")'"
    [ "$(head -c 200 "$text")" = "$2" ] || fail "$3: '$(head -c 200 "$text")' was printed"
    checks=$((checks + 1))
}

# tried WHAT: a run over the store, which may take neither a minute nor much memory. What waits for a pipe is ended.
tried() {
    echo "$all" | (ulimit -v 2000000 && timeout 60 "$program" "$store" run) >"$text"
    status=$?
}

# stand WHAT PATH: puts something under a path.
stand() {
    case $1 in
    pipe) mkfifo "$2" ;;
    socket) python3 -c 'import socket, sys; socket.socket(socket.AF_UNIX).bind(sys.argv[1])' "$2" ;;
    device) mknod "$2" c 1 5 ;;
    link) ln -s "$outside" "$2" ;;
    circle) ln -s "$2" "$2" ;;
    dangling) ln -s "$work/nowhere" "$2" ;;
    folder) mkdir "$2" ;;
    sparse) truncate -s 1T "$2" ;;
    esac
}
kinds='pipe socket device link circle dangling folder'

# without_proc WORD..: carries out a command where the system shows no open files under a path.
without_proc() {
    unshare -m sh -c 'mount -t tmpfs lethe_proc /proc && exec "$@"' sh "$@"
}

# begin: starts a run that waits for its script, with the folder in its hands.
begin() {
    rm -f "$work/script"
    mkfifo "$work/script"
    $how timeout 300 "$program" "$store" run "$@" <"$work/script" >"$text" &
    first=$!
    exec 3>"$work/script"
    sleep 1
}

# finish: ends the script, and waits for the run.
finish() {
    exec 3>&-
    wait "$first"
    status=$?
}

# One entry a page and a page a file, so that a few puts make each kind of object.
make_store() {
    rm -rf "$store"
    printf '1 put a 5 x\n1 put b 6 y\n1 put c 7 z\n' | "$program" "$store" run --buffer 1 --page 1 --tile 1 --file 1 >"$text" || fail "the store wasn't made"
}
words='--buffer 1 --page 1 --tile 1 --file 1'
all_of="1 at 3 scan 3 a 5 x b 6 y c 7 z"
printf 'not of the store\n' >"$outside"
cp -p "$outside" "$work/kept"

# What is made is for its owner alone, whatever the mask; what is there stays as it is.
make_store
[ "$(stat -c %a "$store")" = 700 ] || fail "a new folder has the mode $(stat -c %a "$store")"
[ -z "$(find "$store" -type f ! -perm 600)" ] || fail "a file has another mode than 600"
chmod 755 "$store"
echo "1 put d 8 w" | "$program" "$store" run $words >"$text" || fail "a folder that others may read isn't opened"
[ "$(stat -c %a "$store")" = 755 ] || fail "the mode of a folder that was there is changed"
[ -z "$(find "$store" -type f ! -perm 600)" ] || fail "a later file has another mode than 600"
checks=$((checks + 4))

# Under the name of an object, when the folder is opened.
make_store
for kind in $kinds; do
    stand "$kind" "$store/p-00000000000000000099"
    listing "$store" >"$work/before"
    tried
    went 10 "bad folder" "a $kind under the name of a page"
    listing "$store" >"$work/after"
    cmp -s "$work/before" "$work/after" || fail "a $kind in it: the folder was changed"
    rm -rf "$store/p-00000000000000000099"
done

# The same in the place of an object, once the folder is open.
for kind in $kinds; do
    for letter in m s f p; do
        make_store
        begin $words
        object=$(find "$store" -name "$letter-*" | sort | tail -n 1)
        rm "$object"
        stand "$kind" "$object"
        echo "$all" >&3
        finish
        case $letter-$status in
        m-* | s-* | f-* | p-*-6 | p-6) went 6 "open fault before 0 after 1" "a $kind in the place of $letter" ;;
        *) fail "a $kind in the place of $letter: status $status, '$(head -c 200 "$text")'" ;;
        esac
    done
done
cmp -s "$outside" "$work/kept" || fail "a file outside was written"
[ ! -e "$work/nowhere" ] || fail "a file outside was made"

# An object that is a TB long, most of it a hole.
for letter in m f p s; do
    make_store
    object=$(find "$store" -name "$letter-*" | sort | tail -n 1)
    number=$(basename "$object" | cut -c 3- | sed 's/^0*//')
    stand sparse "$object"
    echo "$all" | (ulimit -v 2000000 && timeout 60 "$program" "$store" run $words) >"$text"
    status=$?
    case $letter in
    m) went 8 "damaged manifest $number" "a sparse manifest" ;;
    f) went 8 "damaged file $number" "a sparse header" ;;
    p) went 8 "damaged page $number" "a sparse page" ;;
    # Behind its records a segment may have anything.
    s) went 0 "$all_of" "a sparse segment" ;;
    esac
done

# A folder, or the one that it lies in, without permission. Root may do all, so another user runs it.
user=$work/user
mkdir "$user"
chmod 755 "$work"
cp "$program" "$work/lethe_cli"
chown 65534:65534 "$user"
as_user() {
    echo "$all" | timeout 60 setpriv --reuid=65534 --regid=65534 --clear-groups "$work/lethe_cli" "$user/store" run $words >"$text"
    status=$?
}
rm -rf "$user/store"
as_user
went 0 "1 at 0 scan 0" "another user's new store"
listing "$user" >"$work/before"
for try in '0500 6 open fault before 0 after 1' '0300 10 bad folder' '0600 10 bad folder' '0000 10 bad folder'; do
    mode=${try%% *}
    rest=${try#* }
    chmod "$mode" "$user/store"
    as_user
    went "${rest%% *}" "${rest#* }" "a folder of the mode $mode"
    chmod 0700 "$user/store"
done
chmod 0300 "$user"
as_user
went 10 "bad folder" "a folder in one that can't be listed"
chmod 0755 "$user"
as_user
went 0 "1 at 0 scan 0" "the store behind that"

# The folder gets another name while a run has it, and another folder its name.
make_store
begin $words
mv "$store" "$work/moved"
mkdir "$store"
awk 'BEGIN { for (i = 0; i < 30; i++) printf "1 put k%05d %d v\n", i, i; print "1 get a" }' >&3
finish
[ "$status" = 0 ] && [ "$(tail -n 1 "$text")" = "1 at 33 val 5 x" ] || fail "a run whose folder was renamed: status $status, $(tail -n 1 "$text")"
[ -z "$(ls -A "$store")" ] || fail "something was written into the folder that took the name"
echo "1 get k00029" | "$program" "$work/moved" run $words >"$text" || fail "the renamed folder"
[ "$(cat "$text")" = "1 at 33 val 29 v" ] || fail "the renamed folder hasn't what was answered"
rm -rf "$store" "$work/moved"
checks=$((checks + 3))

# Where the system shows no open files, the path stays the way, and a sync tells that it leads elsewhere.
make_store
echo "$all" | without_proc "$program" "$store" run $words >"$text"
status=$?
went 0 "$all_of" "a store without /proc"
how=without_proc
begin $words
how=
mv "$store" "$work/moved"
mkdir "$store"
echo "1 put d 8 w" >&3
finish
went 6 "open fault before 0 after 1" "a run without /proc whose folder was renamed"
[ "$(echo "$all" | "$program" "$work/moved" run $words)" = "$all_of" ] || fail "the renamed folder without /proc"
rm -rf "$store" "$work/moved"

# It goes to and fro while the run makes files.
begin --buffer 50
awk 'BEGIN { for (i = 0; i < 500; i++) printf "1 put k%05d %d v\n", i, i }' >&3
exec 3>&-
moves=0
while kill -0 "$first" 2>/dev/null; do
    mv "$store" "$work/moved" && mv "$work/moved" "$store" || fail "it couldn't be renamed"
    moves=$((moves + 1))
done
wait "$first" || fail "a run whose folder went to and fro: status $?, $(tail -n 1 "$text")"
[ "$(grep -c '^1 ok ' "$text")" = 500 ] || fail "a run whose folder went to and fro: $(tail -n 1 "$text")"
echo "1 get k00499" | "$program" "$store" run --buffer 50 >"$text"
[ "$(cat "$text")" = "1 at 500 val 499 v" ] || fail "the folder that went to and fro: $(cat "$text")"
[ "$moves" -ge 10 ] || fail "only $moves renames came while it ran; give it more to do"
checks=$((checks + 2))

# Two processes, each with the folder that had the path when it came; a third finds the first folder held.
make_store
begin $words
mv "$store" "$work/moved"
echo "1 put second 1 s" | "$program" "$store" run >"$work/second" || fail "a second process over a new folder of the path"
echo "$all" | "$program" "$work/moved" run $words >"$work/third"
[ $? = 10 ] || fail "a third process was let into the folder that is held"
echo "1 put d 8 w" >&3
finish
went 0 "1 ok 4" "the first of two processes"
[ "$(echo "$all" | "$program" "$store" run)" = "1 at 1 scan 1 second 1 s" ] || fail "the second's folder"
[ "$(echo "$all" | "$program" "$work/moved" run $words)" = "1 at 4 scan 4 a 5 x b 6 y c 7 z d 8 w" ] || fail "the first's folder"
rm -rf "$store" "$work/moved"
# While it goes to and fro, two processes ask for it over and over: each has it, finds it held, or finds another one.
(
    for again in 1 2 3 4 5 6 7 8 9 10 11 12 13 14 15 16 17 18 19 20; do
        mv "$store" "$work/moved" 2>/dev/null
        mv -T "$work/moved" "$store" 2>/dev/null || mv -T "$work/moved" "$work/apart$again" 2>/dev/null
    done
) &
mover=$!
for again in 1 2 3 4 5 6 7 8 9 10; do
    (echo "1 put a $again x" | timeout 60 "$program" "$store" run >"$work/one" 2>&1; echo $? >>"$work/statuses") &
    one=$!
    echo "1 put b $again x" | timeout 60 "$program" "$store" run >"$work/two" 2>&1
    echo $? >>"$work/statuses"
    wait "$one"
done
wait "$mover"
grep -qv '^\(0\|6\|10\)$' "$work/statuses" && fail "two processes over a folder that is renamed: status $(grep -v '^\(0\|6\|10\)$' "$work/statuses" | head -n 1)"
for folder in "$store" "$work/moved" "$work"/apart*; do
    [ ! -d "$folder" ] || echo "$all" | "$program" "$folder" run >"$text" || fail "behind two processes and renames $folder is damaged: $(cat "$text")"
done
checks=$((checks + 4))

# Standard streams that are closed. What is meant for them lands nowhere.
make_store
"$program" "$store" run $words <&- >"$text"
status=$?
went 4 "" "standard input closed"
echo "1 put d 8 w" | "$program" "$store" run $words >&-
status=$?
: >"$text"
went 5 "" "standard output closed"
echo "1 put e 9 v" | "$program" "$store" run $words 2>&- >"$text"
status=$?
went 0 "1 ok 5" "standard error closed"
"$program" "$store" run $words <&- >&- 2>&-
status=$?
: >"$text"
went 4 "" "all of them closed"
echo "$all" | "$program" "$store" run $words >"$text"
status=$?
went 0 "1 at 5 scan 5 a 5 x b 6 y c 7 z d 8 w e 9 v" "the store behind closed streams"
pass "$checks outcomes are as they should be, $moves renames in one run among them"
