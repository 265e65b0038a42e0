# shellcheck shell=sh
# What the scripts of this folder share. tests/all runs them all, and each runs alone as tests/NAME.sh. It ends with a line that begins
# with PASS, FAIL or SKIP, and with status 0, 1 or 77. They stand in no gate, since they need time, a file system of one's own or root.
root=$(CDPATH='' cd -- "$(dirname -- "$0")/.." && pwd)
this=$(basename -- "$0" .sh)
work=$(mktemp -d) || exit 1
trap 'rm -rf "$work"' EXIT
trap 'exit 130' INT
trap 'exit 143' TERM

pass() {
    read_left
    printf 'PASS %s\n' "$this: $*$left"
    exit 0
}

fail() {
    printf 'FAIL %s\n' "$this: $*"
    exit 1
}

# read_left: each store that a script leaves is read by the second reader too, and compared with what the program makes of it. A script's own stand-in for the program is none.
read_left() {
    left=
    [ -x "$root/crates/lethe_cli/out/lethe_cli" ] && command -v python3 >/dev/null || return 0
    find "$work" -type f -name '[gmsfp]-????????????????????' -printf '%h\0' 2>/dev/null | sort -zu >"$work/stores.left"
    xargs -0 -r python3 "$root/tests/readers.py" "$root/crates/lethe_cli/out/lethe_cli" <"$work/stores.left" >"$work/read.left" 2>&1 || fail "$(tail -n 1 "$work/read.left")"
    count=$(tr -dc '\0' <"$work/stores.left" | wc -c)
    [ "$count" = 0 ] || left="; a second reader reads the $count stores that are left"
}

# skip WHY: what it needs and lacks.
skip() {
    printf 'SKIP %s\n' "$this: $*"
    exit 77
}

# needs COMMAND..: skips where one isn't there.
needs() {
    for one in "$@"; do
        command -v "$one" >/dev/null || skip "it needs the command $one, which isn't there"
    done
}

# Skips where the program isn't built, or is older than the sources. Any that `./lethe` would run is taken.
needs_program() {
    case $("$root/lethe" --version | tail -n 1) in
    "proved program" | program*) ;;
    *) skip "it needs the program, which isn't built or is older than its sources: run ./lethe --build" ;;
    esac
}

program=$root/crates/lethe_cli/out/lethe_cli

# run FOLDER: carries out the script on standard input over the store in a folder.
run() {
    "$program" "$1" run
}

# listing FOLDER: each name in it, what it is and when it was changed, and the bytes.
listing() {
    (cd "$1" && find . -printf '%P %y %s %m %T@\n' | sort && find . -type f -exec sha256sum {} + | sort)
}

# all: the line that reads every key of these scripts.
# shellcheck disable=SC2034
all='1 scan ! ~'

# refused_words: words that the program and `./lethe` refuse before anything is touched, and the reason that is said of them, a row each.
refused_words() {
    cat <<'END'
data|behind the folder stands the command run: ./lethe DIR run < SCRIPT
run|behind the folder stands the command run: ./lethe DIR run < SCRIPT
run data|behind the folder stands the command run: ./lethe DIR run < SCRIPT
''|behind the folder stands the command run: ./lethe DIR run < SCRIPT
data -h|behind the folder stands the command run: ./lethe DIR run < SCRIPT
data --version|behind the folder stands the command run: ./lethe DIR run < SCRIPT
data help|behind the folder stands the command run: ./lethe DIR run < SCRIPT
data get a|behind the folder stands the command run: ./lethe DIR run < SCRIPT
data --quiet run|behind the folder stands the command run: ./lethe DIR run < SCRIPT
data run --none 4|--none is no option: ./lethe --help lists them
data run --quiet 4|--quiet is no option: ./lethe --help lists them
data run 4|4 is no option: ./lethe --help lists them
data run ''|? is no option: ./lethe --help lists them
data run "--no$(printf '\n\t\033')e" 4|--no???e is no option: ./lethe --help lists them
data run --ratio|--ratio has no value
data run --ratio 4 --ratio 4|--ratio is given twice
data run --ratio abc|--ratio abc: --ratio is a number from 2 to 16
data run --ratio 1|--ratio 1: --ratio is a number from 2 to 16
data run --ratio 17|--ratio 17: --ratio is a number from 2 to 16
data run --ratio -5|--ratio -5: --ratio is a number from 2 to 16
data run --ratio 30d|--ratio 30d: --ratio is a number from 2 to 16
data run --ratio 0|--ratio 0: --ratio is a number from 2 to 16
data run --ratio 05|--ratio 05: --ratio is a number from 2 to 16
data run --ratio ''|--ratio : --ratio is a number from 2 to 16
data run --threshold 30d|--threshold 30d: --threshold is a number from 1 to 1099511627776
data run --threshold 99999999999999999999|--threshold 99999999999999999999: --threshold is a number from 1 to 1099511627776
data run --threshold 1099511627777|--threshold 1099511627777: --threshold is a number from 1 to 1099511627776
data run --levels 7|--levels 7: --levels is a number from 1 to 6
data run --page 1025|--page 1025: --page is a number from 1 to 1024
data run --tile 65|--tile 65: --tile is a number from 1 to 64
data run --file 257|--file 257: --file is a number from 1 to 256
data run --buffer 16385|--buffer 16385: --buffer is a number from 1 to 16384
data run --pick xx|--pick xx: --pick is so or sd
data run --page 4|--page 4: the buffer's 512 is more than 4 x 4 x 8
data run --page 1024 --tile 64 --file 2|--page 1024 --tile 64 --file 2: a file's 1024 x 64 x 2 entries are more than 65536
data run --buffer 2049 --page 64|--page 64 --buffer 2049: the buffer's 2049 is more than 64 x 4 x 8
END
}
