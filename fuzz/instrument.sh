#!/usr/bin/env bash
# Compiles the proved library once more, with the counters that guide libFuzzer:
#
#     fuzz/instrument.sh FOLDER
#
# writes FOLDER/libleafgraph.a. make/archive.py asks the toolchain for what `rt lib`
# asks for, but here with a folder of links to the toolchain's own tools in which
# clang is a script that adds a flag. The folder is none of the repository's, since
# `rt ci` refuses links to folders there, and goes again. crates/*/out/ is read and
# not written, and nothing of the toolchain is copied.
set -euo pipefail

die() {
    echo "fuzz/instrument.sh: $*" >&2
    exit 1
}

[ $# -eq 1 ] || die "usage: fuzz/instrument.sh FOLDER"
cd "$(dirname "$0")/.."
mkdir -p "$1"
folder=$(cd "$1" && pwd)

rt=$(command -v rt) || die "no rt on the path: the library cannot be compiled again"
tools=$(dirname "$(dirname "$(readlink -f "$rt")")")/toolchain
[ -e "$tools/bin/clang" ] || die "the toolchain has no $tools/bin/clang, so it is not one that this script knows"

links=$(mktemp -d)
trap 'rm -rf "$links"' EXIT
mkdir "$links/bin"
for part in "$tools"/* "$tools"/bin/*; do
    name=${part#"$tools"/}
    case $name in
    bin | bin/clang) ;;
    *) ln -s "$part" "$links/$name" ;;
    esac
done
cat >"$links/bin/clang" <<END
#!/bin/sh
exec "$tools/bin/clang" -fsanitize-coverage=inline-8bit-counters,pc-table,trace-cmp "\$@"
END
chmod +x "$links/bin/clang"

"${PYTHON:-python3}" -B make/archive.py "$folder/libleafgraph.a" --toolchain "$links" ||
    die "the library could not be compiled again"
grep -q __sanitizer_cov_8bit_counters_init "$folder/libleafgraph.a" || {
    rm -f "$folder/libleafgraph.a"
    die "the archive has no counters: the toolchain's clang ignored the flag"
}
echo "$1: libleafgraph.a with counters"
