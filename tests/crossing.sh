#!/bin/sh
# A disk whose pages threads may not share is refused where it is used as a disk, before any proof.
# shellcheck source=tests/common.sh
. "$(dirname -- "$0")/common.sh"
needs rt
copy=$work/copy
mkdir -p "$copy/crates"
git -C "$work" init -q copy || fail "no copy"
for crate in lethe_base lethe_disk lethe_memdisk; do
    mkdir "$copy/crates/$crate"
    for part in src specs proofs; do
        [ ! -d "$root/crates/$crate/$part" ] || cp -R "$root/crates/$crate/$part" "$copy/crates/$crate/"
    done
    grep "^$crate:" "$root/crates.txt" >>"$copy/crates.txt"
done
page=$copy/crates/lethe_memdisk/src/page.rt
sed 's/^    bytes: Vec<u8>,$/    bytes: Vec<u8>,\n    asked: std::cell::Cell<u8>,/; s/MemPage { bytes }/MemPage { bytes, asked: std::cell::Cell::new(0) }/' "$page" >"$work/page"
cmp -s "$work/page" "$page" && fail "nothing was changed"
cp "$work/page" "$page"
if (cd "$copy/crates/lethe_memdisk" && rt check) >"$work/said" 2>&1; then
    fail "a page that threads may not share passes"
fi
refusals=$(grep -c 'src/[a-z]*\.rt:.*the trait bound `UnsafeCell<u8>: Sync` is not satisfied' "$work/said")
[ "$refusals" -gt 0 ] || fail "it is refused otherwise: $(tail -n 3 "$work/said")"
pass "$refusals disks whose page has a cell are refused where they are used as disks"
