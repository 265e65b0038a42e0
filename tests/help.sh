#!/bin/sh
# What `./lethe --help` prints: its examples are carried out and print what stands behind them, and its options, with their least, greatest and
# default values, are those that the program takes.
# shellcheck source=tests/common.sh
. "$(dirname -- "$0")/common.sh"
needs_program
"$root/lethe" --help >"$work/help" || fail "--help ended with status $?"

# The examples: a line that begins with $ is a command, and those behind it are what it prints.
sed -n '/^Examples:/,/^docs/p' "$work/help" | sed -n 's/^    //p' >"$work/examples"
ln -s "$root/lethe" "$work/lethe"
count=0
: >"$work/wanted"
: >"$work/printed"
while IFS= read -r line; do
    case $line in
    "$ "*)
        (cd "$work" && sh -c "${line#"$ "}") >>"$work/printed" || fail "'$line' ended with status $?"
        count=$((count + 1))
        ;;
    '') ;;
    *) printf '%s\n' "$line" >>"$work/wanted" ;;
    esac
done <"$work/examples"
[ "$count" -ge 3 ] || fail "there are $count examples"
cmp -s "$work/wanted" "$work/printed" || fail "the examples print: $(tr '\n' '|' <"$work/printed")"

# status WORD..: the status of a run of no lines with these options. 2 is for words that are no command.
status() {
    rm -rf "$work/tried"
    "$program" "$work/tried" run "$@" </dev/null >"$work/text"
    echo $?
}

options=0
sed -n '/^Options/,/^$/s/^    --\([a-z]*\) *\([0-9]*\) to \([0-9]*\) *default \([0-9]*\) .*/\1 \2 \3 \4/p' "$work/help" >"$work/options"
while read -r name least greatest default; do
    # The greatest values of page, tile and file need the others to be small.
    case $name in
    page | tile | file) rest="--buffer 1" ;;
    buffer) rest="--file 64" ;;
    *) rest= ;;
    esac
    case $name in
    page) rest="$rest --tile 1 --file 1" ;;
    tile) rest="$rest --page 1 --file 1" ;;
    file) rest="$rest --page 1 --tile 1" ;;
    esac
    for value in $least $greatest $default; do
        # shellcheck disable=SC2086
        [ "$(status $rest --"$name" "$value")" = 0 ] || fail "--$name $value is refused"
    done
    for value in $((least - 1)) $((greatest + 1)); do
        # shellcheck disable=SC2086
        [ "$(status $rest --"$name" "$value")" = 2 ] || fail "--$name $value is taken"
    done
    # A store keeps its options, so what a run without the option made is read by one with the default.
    [ "$(status)" = 0 ] || fail "a run without options"
    "$program" "$work/tried" run --"$name" "$default" </dev/null >"$work/text" || fail "$default isn't the default of --$name"
    options=$((options + 1))
done <"$work/options"
[ "$options" = 7 ] || fail "$options options with numbers are told, not 7"
for value in so sd; do
    [ "$(status --pick "$value")" = 0 ] || fail "--pick $value is refused"
done
pass "its $count commands print what stands there, and its options have the limits and defaults that it tells"
