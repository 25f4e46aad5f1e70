#!/usr/bin/env bash
# Packs program, library and drain-gis for Debian and Ubuntu: FOLDER/drain_VERSION-1_amd64.deb. Refuses a program that was
# not proved and built from these sources. The same inputs give the same bytes. The package is not for Debian's own archive: that builds
# from source, and has no Rattle toolchain.
# Usage: tools/deb.sh PROGRAM SHARED FOLDER
#     SHARED                   what tools/shared_library.sh linked, or - for a package without it
#     DEBFULLNAME, DEBEMAIL    name and address of who makes the package
#     SOURCE_DATE_EPOCH        the time of the packed files, in seconds since 1970; else that of the last commit
set -euo pipefail
[ $# -eq 3 ] || {
    echo 'usage: tools/deb.sh PROGRAM SHARED FOLDER' >&2
    exit 2
}
program=$(realpath -m -- "$1")
shared=$2
folder=$(realpath -m -- "$3")
top=$(cd "$(dirname "$0")/.." && pwd)
. "$top/tools/release_parts.sh"
for tool in dpkg-deb objdump; do
    command -v $tool >/dev/null || refuse "a .deb needs $tool on the PATH"
done
take_program "$program"

# A package names who made it. The repository gives no address. Without DEBFULLNAME and DEBEMAIL a placeholder is put there:
# example.org is reserved for examples, and is no real address. There is no Homepage field, as the repository gives no page.
maintainer="${DEBFULLNAME:-The authors of drain} <${DEBEMAIL:-drain@example.org}>"

root=$room/root
doc=$root/usr/share/doc/drain
install -d "$root/DEBIAN" "$root/usr/share/man/man1" "$root/usr/share/lintian/overrides"
install -D -m 755 "$room/drain" "$root/usr/bin/drain"
"$top/tools/man_page.py" "$room/drain" | gzip -9n >"$root/usr/share/man/man1/drain.1.gz"
"$top/tools/man_page.py" "$top/companion/drain-gis" | gzip -9n >"$root/usr/share/man/man1/drain-gis.1.gz"
if [ "$shared" != - ]; then
    take_shared "$(realpath -m -- "$shared")"
    install -D -m 644 "$room/libdrain.so.0" "$root/usr/lib/x86_64-linux-gnu/libdrain.so.0"
    ln -s libdrain.so.0 "$root/usr/lib/x86_64-linux-gnu/libdrain.so"
    install -D -m 644 "$top/crates/drain_c/include/drain.h" "$root/usr/include/drain.h"
    echo "libdrain 0 drain (>= $version)" >"$root/DEBIAN/shlibs"
    echo 'activate-noawait ldconfig' >"$root/DEBIAN/triggers"
fi
copy_files "$doc" README.md CONTRIBUTING.md RELEASING.md SECURITY.md docs examples
copy_files "$doc/examples" samples tools/demo.sh tools/demo.txt
install -m 644 "$room/PROVED" "$doc/PROVED"
"$top/tools/put_companion.sh" "$root" /usr /usr/lib/python3/dist-packages "$room/PROVED" lib/x86_64-linux-gnu/libdrain.so.0
[ ! -f "$top/CHANGELOG.md" ] || gzip -9n <"$top/CHANGELOG.md" >"$doc/changelog.gz"
gzip -9n >"$doc/changelog.Debian.gz" <<C
drain ($version-1) unstable; urgency=medium

  * The program as it was proved and built: see PROVED.

 -- $maintainer  $(date -Rud "@$when")
C
{
    cat <<'C'
Format: https://www.debian.org/doc/packaging-manuals/copyright-format/1.0/
Upstream-Name: drain

Files: *
Copyright: 2026 the authors of drain
License: Apache-2.0

Files: samples/*
C
    sed -n 's/^Copyright: Copyright \(.*\)/Copyright: \1/p' "$top/samples/LICENSE-matplotlib.txt"
    cat <<'C'
           2026 the authors of drain
License: matplotlib and Apache-2.0
Comment: samples/README.md says which samples have elevations of Matplotlib's data.

License: Apache-2.0
 On Debian systems the text of the Apache License, version 2.0, is in
 /usr/share/common-licenses/Apache-2.0.

License: matplotlib
C
    sed '1,/^License:/d' "$top/samples/LICENSE-matplotlib.txt"
} >"$doc/copyright"

cat >"$root/usr/share/lintian/overrides/drain" <<'C'
# This package is not for Debian's archive, so it closes no bug there.
drain: initial-upload-closes-no-bugs
# Fortified functions replace calls in C code, and the program has none of its own.
drain: hardening-no-fortify-functions
# The program has the bytes whose sum PROVED names. Stripped it would have others, and be 3 % smaller.
drain: unstripped-binary-or-object
# One package has the program, the library and what C programs need to be linked with it.
drain: package-name-doesnt-match-sonames libdrain0
drain: link-to-shared-library-in-wrong-package
drain: no-symbols-control-file
C

needed=$(objdump -p "$room/drain" | awk '$1 == "NEEDED" { print $2 }' | xargs)
[ "$needed" = libc.so.6 ] || refuse "$1 needs other libraries than libc.so.6: $needed"
libc=$(objdump -T "$room/drain" | grep -o 'GLIBC_[0-9.]*' | sed 's/GLIBC_//' | sort -Vu | tail -n 1)
# Each file counts in whole KiB and each folder as one, as dpkg-gencontrol counts.
size=$(cd "$root" && find usr -printf '%y %s\n' | awk '{ sum += $1 == "f" ? int(($2 + 1023) / 1024) : 1 } END { print sum }')
cat >"$root/DEBIAN/control" <<C
Package: drain
Version: $version-1
Architecture: amd64
Maintainer: $maintainer
Installed-Size: $size
Depends: libc6 (>= $libc), python3 (>= 3.11), python3-click, python3-jinja2, python3-matplotlib, python3-numpy, python3-rasterio, python3-tqdm
Section: science
Priority: optional
Description: proved checker of drainage rasters
 drain says whether a conditioned elevation raster, flow directions, flow
 accumulation and basin labels are correct for the SRTM tiles that they were
 computed from. It looks at every cell, and its answer is proved to be the
 right one for the bytes that it read. It also makes such rasters, and
 explains what is wrong with those that it rejects.
 .
 drain-gis, which is tested and not proved, has it judge the rasters of other
 tools: GeoTIFFs and 17 other formats, in the codes of ArcGIS, SAGA, GRASS,
 TauDEM, WhiteboxTools and others. It writes a report, a map and a picture.
C
(cd "$root" && find usr -type f -print0 | sort -z | xargs -0 md5sum >DEBIAN/md5sums)
find "$root" -exec touch -hd "@$when" {} +
name=drain_$version-1_amd64.deb
DPKG_DEB_THREADS_MAX=1 dpkg-deb --root-owner-group -Zxz --build "$root" "$room/$name" >/dev/null
put "$room/$name" "$folder"
echo "Packed: $folder/$name"
