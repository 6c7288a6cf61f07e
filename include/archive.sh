#!/usr/bin/env bash
# archive.sh FOLDER [CPU]: proves and builds the library for C and writes FOLDER/libmj_c.a, one archive to link, with the
# kit's allocator over malloc in it, and FOLDER/libmj_c.pc for pkg-config. CPU is x86-64-v2 where it is left out.
set -e
[ $# -ge 1 ] || { sed -n 2,3p "$0"; exit 2; }
here="$(cd "$(dirname "$0")" && pwd)"
kit="${KIT:-$(dirname "$(rt doc)")}"
mkdir -p "$1"
folder="$(cd "$1" && pwd)"
log="$(mktemp)"
trap 'rm -f "$log"' EXIT
(cd "$here/../crates/mj_c" && rt lib mj_c --cpu "${2:-x86-64-v2}") >"$log" 2>&1 || { cat "$log"; exit 1; }
printf 'create %s\naddlib %s\naddlib %s\nsave\nend\n' "$folder/libmj_c.a" "$here/../crates/mj_c/out/libmj_c.a" "$kit/c/liblibc_c.a" |
    "$kit/toolchain/bin/llvm-ar" -M
cat >"$folder/libmj_c.pc" <<END
Name: mj_c
Description: The Mojette transform: blocks to projections and back
Version: 1
Cflags: -I$here
Libs: -L$folder -lmj_c
END
