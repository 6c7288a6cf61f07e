#!/usr/bin/env bash
# Builds libmj_c.a for each of two processors, tries every set of positions, and times the transform.
# KIT is the folder of the Rattle kit. ISA-L is measured where its headers are (Debian: libisal-dev).
set -e
here="$(cd "$(dirname "$0")" && pwd)"
out="$(mktemp -d)"
trap 'rm -rf "$out"' EXIT
isal=()
if echo '#include <isa-l.h>' | cc -E - >/dev/null 2>&1; then
    isal=(-DHAVE_ISAL -lisal)
fi
for cpu in x86-64-v2 x86-64-v3; do
    if [ "$cpu" = x86-64-v3 ] && ! grep -qw avx2 /proc/cpuinfo; then
        echo "this processor has no AVX2, so $cpu is passed over"
        continue
    fi
    "$here/../include/archive.sh" "$out" "$cpu"
    cc -O2 -Wall -Wextra "$here/sets.c" "$out/libmj_c.a" -o "$out/sets"
    cc -O2 -Wall -Wextra "$here/transform.c" "$out/libmj_c.a" "${isal[@]}" -o "$out/transform"
    echo "== $cpu"
    "$out/sets"
    "$out/transform" "$@"
done
