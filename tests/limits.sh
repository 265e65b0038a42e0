#!/bin/sh
# Scripts with pins and ticks whose limits are as a plain model has them: tests/limits.sh [COUNT [SEED]].
# shellcheck source=tests/common.sh
. "$(dirname -- "$0")/common.sh"
needs python3
needs_program
told=$(python3 "$root/bench/limits_run" "${1:-30}" "${2:-$(od -An -N4 -tu4 /dev/urandom | tr -d ' ')}" 2>&1) || fail "$told"
pass "$told"
