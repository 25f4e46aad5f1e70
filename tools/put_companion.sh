#!/usr/bin/env bash
# Puts drain-gis below PREFIX: the command bin/drain-gis, and the package drain_gis into the folder SITE of Python. Links in
# the package name the program bin/drain and the library of PREFIX, so that these and no others answer. ROOT goes in front
# of both folders. PROVED says what was proved of both.
# Usage: tools/put_companion.sh ROOT PREFIX SITE PROVED [LIBRARY]
#     SITE       - for where Python looks below PREFIX, or would look
#     LIBRARY    if it isn't lib/libdrain.so.0
set -euo pipefail
root=$1
prefix=$2
site=$3
proved=$4
library=${5:-lib/libdrain.so.0}
companion=$(cd "$(dirname "$0")/.." && pwd)/companion
umask 022

# A folder below PREFIX that Python looks through; if there is none, the one of its version.
looks_in() {
    /usr/bin/python3 -c 'import site, sys, sysconfig
prefix = sys.argv[1].rstrip("/")
looked = [*sys.path, site.getusersitepackages()]
below = [path for path in looked if path.startswith(f"{prefix}/lib/python") and path.endswith("-packages")]
print(below[0] if below else sysconfig.get_path("purelib", "posix_prefix", {"base": prefix}))' "$1"
}
[ "$site" != - ] || site=$(looks_in "$prefix")

package=$root$site/drain_gis
rm -rf "$package"
install -d "$package/_drain"
install -m 644 "$companion"/drain_gis/*.py "$companion"/drain_gis/*.j2 "$package"
: >"$package/py.typed"
install -m 644 "$proved" "$package/_drain/PROVED"
ln -s "$(realpath -ms --relative-to="$site/drain_gis/_drain" "$prefix/bin/drain")" "$package/_drain/drain"
ln -s "$(realpath -ms --relative-to="$site/drain_gis/_drain" "$prefix/$library")" "$package/_drain/libdrain.so"
install -D -m 755 "$companion/drain-gis" "$root$prefix/bin/drain-gis"
/usr/bin/python3 -c 'import sys; sys.exit(sys.argv[1] not in sys.path)' "$site" ||
    echo "drain-gis is installed; for import drain_gis put $site on PYTHONPATH"
