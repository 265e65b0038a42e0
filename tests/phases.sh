#!/bin/sh
# Generated scripts of two to eight callers and one to five phases, in several runs over one folder, print what their orders may be answered, whatever the order of the callers of a phase
# is: a reader that knows the texts alone looks at each line. tests/phases.sh [COUNT [SEED]].
# shellcheck source=tests/common.sh
. "$(dirname -- "$0")/common.sh"
needs python3
needs_program
told=$(python3 "$root/bench/phases_run" "${1:-30}" "${2:-$(od -An -N4 -tu4 /dev/urandom | tr -d ' ')}" 2>&1) || fail "$told"
pass "$told"
