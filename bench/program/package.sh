#!/usr/bin/env bash
# Packs the commit at hand twice, out of two checkouts: both packages must have the same bytes.
#
# The two are packed by other habits of the machine. What is in them must run without the kit, from a folder of its own, and PROVED must have the program's sum. It wants git, dpkg
# and binutils.
#
#     bench/program/package.sh PROGRAM
#
# PROGRAM is the built program. What isn't committed isn't packed.
set -eu
program=$(realpath "$1")
here=$(dirname "$(realpath "$0")")
top=$(git -C "$here" rev-parse --show-toplevel)
room=$(mktemp -d)
trap 'rm -rf "$room"' EXIT
cd "$room"

# checkout NAME: a clone in which the program is newer than every source.
checkout() {
    git clone -q "$top" "$1"
    mkdir -p "$1/crates/m2v_main/out"
    cp "$program" "$1/crates/m2v_main/out/m2v_main"
    find "$1" -path "$1/.git" -prune -o -type f ! -path '*/out/*' -exec touch -d '2001-02-03' {} +
}
checkout one
checkout other
echo '12 passed, 0 failed' > gate.txt
(umask 022 && one/puckerledge package packed gate.txt)
(umask 077 && TZ=Asia/Tokyo LC_ALL=C other/puckerledge package "$PWD/packed again" gate.txt)
diff -r packed 'packed again'

# both hold the same files
mkdir from_deb from_tar
dpkg-deb -x packed/*.deb from_deb
tar xf packed/*.tar.gz -C from_tar --strip-components=1
diff -r from_deb/usr from_tar
(cd from_deb && dpkg-deb -I ../packed/*.deb md5sums | md5sum -c --quiet)
for folder in from_deb/usr from_tar; do
    run() { env -i PATH=/usr/bin:/bin "$folder/bin/puckerledge" "$@"; }
    head -c 384 /dev/zero | tr '\0' '\200' | run flat 16 16 3 1 > small.m2v 2> line
    run check < small.m2v 2>> line
    printf '%s\n' 'frames 1 pictures 1 bytes 52 stuffing 0' 'variable frames 1 pictures 1 bytes 52' | diff - line
    run help decode | grep -q '^puckerledge decode'
    grep -qF "$(sha256sum < "$folder/lib/puckerledge/puckerledge" | cut -d' ' -f1)" "$folder/share/doc/puckerledge/PROVED"
    cmp "$program" "$folder/lib/puckerledge/puckerledge"
done
grep -E '^(commit|kit|logic|gate)' from_tar/share/doc/puckerledge/PROVED
dpkg-deb -f packed/*.deb Version Depends
echo 'packed twice to the same bytes'
