#!/bin/sh
# Ten generated scripts of changes, each carried out in rows and with a read behind each change, which ends its row: the lines of the changes are equal, and so are the files of the
# two stores, byte for byte, the segments of the journal among them. Buffers hold few records, so that rows end where room is made.
# shellcheck source=tests/common.sh
. "$(dirname -- "$0")/common.sh"
needs awk cmp
needs_program

# changes SEED: so many puts, deletes and erases of few keys, the same for each seed.
changes() {
    awk -v state="$1" '
        function below(n) {
            state = (state * 1103515245 + 12345) % 2147483648
            return int(state / 65536) % n
        }
        BEGIN {
            for (at = 1; at <= 60; at++) {
                kind = below(8)
                if (kind < 5) printf "1 put k%d %d v%d\n", below(9), below(50), at
                else if (kind < 7) printf "1 del k%d\n", below(9)
                else { low = below(40); printf "1 erase %d %d\n", low, low + 1 + below(10) }
            }
        }'
}

# small FOLDER: carries out the script on standard input over a store whose buffers hold few records.
small() {
    "$program" "$1" run --page 2 --tile 2 --file 4 --buffer "$buffer"
}

records=0
for seed in 1 2 3 4 5 6 7 8 9 10; do
    buffer=$((seed % 3 + 2))
    changes "$seed" >"$work/script"
    small "$work/row$seed" <"$work/script" >"$work/lines" || fail "seed $seed in rows ended with status $?"
    sed 's/$/\n1 get k0/' "$work/script" | small "$work/one$seed" >"$work/all" || fail "seed $seed one by one ended with status $?"
    grep '^1 ok ' "$work/all" >"$work/changes"
    cmp -s "$work/lines" "$work/changes" || fail "seed $seed: the lines of the changes differ"
    [ "$(ls "$work/row$seed")" = "$(ls "$work/one$seed")" ] || fail "seed $seed: the folders have other files"
    segments=0
    for file in "$work/row$seed"/*; do
        cmp -s "$file" "$work/one$seed/$(basename -- "$file")" || fail "seed $seed: $(basename -- "$file") differs"
        case $(basename -- "$file") in s-*) segments=$((segments + 1)) ;; esac
    done
    [ "$segments" -gt 0 ] || fail "seed $seed: there is no segment"
    records=$((records + $(wc -l <"$work/lines")))
done
pass "$records changes of ten scripts: equal lines and equal files, in rows and one by one"
