#!/bin/sh
# `tools/wrong-bodies` tells a wrong body that is refused from one that isn't and from one that can't be applied, in a small crate made here, and every wrong body of lethe_turn
# is refused, below which stands no other crate of the repository. The crates stand in a folder of their own, with a copy of the tool.
# shellcheck source=tests/common.sh
. "$(dirname -- "$0")/common.sh"
needs rt python3

mkdir -p "$work/tools" "$work/crates/small/src" "$work/crates/small/wrong-bodies" "$work/crates/lethe_turn"
cp "$root/tools/wrong-bodies" "$work/tools/"
cp "$root/HANDLES" "$work/"
for part in src specs proofs wrong-bodies; do
    [ ! -d "$root/crates/lethe_turn/$part" ] || cp -r "$root/crates/lethe_turn/$part" "$work/crates/lethe_turn/"
done
{
    echo 'small:'
    grep '^lethe_turn:' "$root/crates.txt"
} >"$work/crates.txt"
cat >"$work/crates/small/src/lib.rt" <<'END'
//! A number.
ghost use Rattle.std.specs.Prelude.{◌≡◌};

/// Three.
pub fn three() -> u32
    ensures three { result ≡ 3 }
{
    2 + 1
}
END

# edit NAME OLD NEW: a wrong body of the small crate.
edit() {
    printf 'file: src/lib.rt\nold: %s\nnew: %s\n' "$2" "$3" >"$work/crates/small/wrong-bodies/$1.edit"
}

# tried STATUS LAST [NAME..]: of these crates, or of both, the tool ends with this status and this last line.
tried() {
    wanted=$1 last=$2
    shift 2
    "$work/tools/wrong-bodies" "$@" >"$work/said" 2>&1
    status=$?
    [ "$status" = "$wanted" ] || fail "it ended with $status where $wanted is right, and said: $(tail -n 3 "$work/said")"
    [ "$(tail -n 1 "$work/said")" = "$last" ] || fail "its last line is '$(tail -n 1 "$work/said")', where '$last' is right"
}

edit adds_two '    2 + 1' '    2 + 2'
edit means_the_same '    2 + 1' '    1 + 2'
edit stands_nowhere '    2 + 3' '    2 + 4'
set -- "$work"/crates/lethe_turn/wrong-bodies/*.edit
turn=$#
tried 1 "$((turn + 1)) refused, 2 not"
tried 0 "$turn refused, 0 not" lethe_turn
tried 2 'tools/wrong-bodies: no crate large' large
pass "the $turn of lethe_turn are refused, and of three others the one that changes what is answered"
