#!/usr/bin/env bash
# Proves and builds rz_bench, runs it on nodes and exports of three sizes and on journals of two, and prints three tables:
# microseconds a call, and the memory of the whole run. OPS is the number of calls of each kind on a node or an export. It
# needs GNU time.
set -eu
here="$(cd "$(dirname "$0")" && pwd)"
crate="$here/../crates/rz_bench"
program="$crate/out/rz_bench"
ops="${OPS:-1000}"
(cd "$crate" && rt run -- node 1 1 >/dev/null)
out="$(mktemp -d)"
trap 'rm -rf "$out"' EXIT

# measure FILE WORDS..: runs the program, and writes what it prints and its greatest resident memory.
measure() {
    local file="$1"
    shift
    echo "rz_bench $*" >&2
    /usr/bin/time -o "$file.memory" -f '%M' "$program" "$@" times >"$file"
    echo "memory $(($(tail -n 1 "$file.memory") / 1024))" >>"$file"
}

# table FILES..: a column for each file, and a row for each kind of call.
table() {
    awk '
        FNR == 1 { columns++; title[columns] = $0; next }
        !($1 in known) { known[$1] = 1; rows++; name[rows] = $1 }
        $1 == "memory" { cell["memory", columns] = $2; next }
        {
            parts = split($0, part, ", ")
            cell[$1, columns] = parts == 1 ? $2 : part[parts]
            sub(/ us$/, "", cell[$1, columns])
            for (i = 2; i < parts; i++) cell[$1, columns] = cell[$1, columns] " (" part[i] ")"
        }
        END {
            printf "| |"; for (c = 1; c <= columns; c++) printf " %s |", title[c]; print ""
            printf "|---|"; for (c = 1; c <= columns; c++) printf "---:|"; print ""
            for (r = 1; r <= rows; r++) {
                printf "| %s |", name[r] == "memory" ? "memory in MiB" : name[r]
                for (c = 1; c <= columns; c++) printf " %s |", cell[name[r], c]
                print ""
            }
        }' "$@"
}

for pairs in 1024 32768 1048576; do
    measure "$out/node.$pairs" node "$pairs" "$ops"
done
# With a directory for each 256 files these are 1,024, 16,384 and 65,535 objects.
measure "$out/export.1020" export 1020 16384 "$ops"
measure "$out/export.16320" export 16320 262144 "$ops"
measure "$out/export.65280" export 65280 1000000 "$ops"
# Of larger exports the parts do not stand in half a journal's disk. So many writes are made that halves change.
measure "$out/journal.32000" journal 32000 100000 50000
measure "$out/journal.58500" journal 58500 58500 50000

table "$out"/node.1024 "$out"/node.32768 "$out"/node.1048576
echo
table "$out"/export.1020 "$out"/export.16320 "$out"/export.65280
echo
table "$out"/journal.32000 "$out"/journal.58500
