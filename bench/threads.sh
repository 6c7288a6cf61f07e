#!/usr/bin/env bash
# Times the built program on scripts of pairs, a put of a block and a get of it: in turns, and on threads by the number of clients. Either
# each client has a block of its own, or all share one. The disks stand in memory or are files, and the layout is 0 or 2. They are small,
# so that their memory is touched before the first operation. What a script takes to be read is timed apart and left out. It prints
# operations a second, the best of three, and sees that what was printed and counted is what the script wants.
#
#   PAIRS=8000 FILE_PAIRS=400 CLIENTS='1 2 4 8 64' ROZO=PROGRAM bench/threads.sh
set -eu
cd -- "$(dirname -- "${BASH_SOURCE[0]}")/.."
clients=${CLIENTS-1 2 4 8 64}
if [ -z "${ROZO-}" ]; then
    ./rozo build
    ROZO=$PWD/crates/rozo_program/out/rozo_program
fi
work=$(mktemp -d)
trap 'rm -rf -- "$work"' EXIT

# A script: the layout, the number of its nodes, whether clients share a block, how many they are, and how many pairs each has.
script() {
    awk -v layout="$1" -v nodes="$2" -v shared="$3" -v clients="$4" -v pairs="$5" 'BEGIN {
        for (n = 1; n <= nodes; n++) list = list (n > 1 ? "," : "") "{\"sid\":" n ",\"cells\":64}"
        print "volume {\"layout\":" layout ",\"bsize\":4096,\"clusters\":[{\"cid\":1,\"nodes\":[" list "]}]}"
        for (c = 1; c <= clients; c++) {
            path = "/f" (shared ? 1 : c)
            print "op c" c " create " path
            for (k = 1; k <= pairs; k++)
                printf "op c%d put %s 0 x:%02d%04d\nop c%d get %s 0\n", c, path, c, k % 10000, c, path
        }
    }'
}

# How many seconds the program takes for a script, the best of three. Its output goes into a file, and its status is to be this.
seconds() {
    local script=$1 status=$2 best= took got
    shift 2
    for _ in 1 2 3; do
        TIMEFORMAT=%R
        got=0
        took=$({ time "$ROZO" "$@" <"$script" >"$work/out"; } 2>&1) || got=$?
        [ "$got" = "$status" ] || { echo "threads: status $got at $*" >&2; exit 1; }
        best=$(awk -v a="${best:-$took}" -v b="$took" 'BEGIN { print a < b ? a : b }')
    done
    echo "$best"
}

# What was printed is right: each line is there, each put was acknowledged or revoked by a later one, and each get has data, or was moved,
# or came before anything was published. Where no block is shared all were acknowledged and all have data, and the events are those of the
# steps: of a create two, of a put its keeps and four, and of a get its fetches and three.
check() {
    awk -v shared="$1" -v clients="$2" -v pairs="$3" -v keeps="$4" -v fetches="$5" '
        $3 == "acked" { acked++ } $3 == "revoked" { revoked++ } $3 == "data" { data++ }
        $3 == "moved" || $3 == "hole" { other++ }
        $1 == "end" { events = $2; next }
        { lines++ }
        END {
            all = clients * pairs
            right = lines == clients + 2 * all && acked + revoked == all && data + other == all
            if (!shared) right = right && acked == all && data == all && events == 2 * clients + all * (keeps + 4 + fetches + 3)
            exit !right
        }' "$work/out" || { echo "threads: what was printed is not what was asked" >&2; exit 1; }
}

# One line of the table: its name, the layout with its nodes, keeps and fetches, whether a block is shared, how many pairs in all, and the
# words behind the command.
line() {
    local name=$1 layout=$2 nodes=$3 keeps=$4 fetches=$5 shared=$6 all=$7 count took read
    shift 7
    printf '| %s |' "$name"
    for count in $clients; do
        script "$layout" "$nodes" "$shared" "$count" $((all / count)) >"$work/script"
        { cat "$work/script"; echo none; } >"$work/refused"
        read=$(seconds "$work/refused" 3 run --disks "$nodes" "$@")
        took=$(seconds "$work/script" 0 run --disks "$nodes" "$@")
        check "$shared" "$count" $((all / count)) "$keeps" "$fetches"
        awk -v took="$took" -v read="$read" -v all="$((all / count * count))" 'BEGIN {
            printf " %d |", 2 * all / (took > read ? took - read : 0.001) }'
    done
    echo
}

mkdir "$work/disks"
printf '| clients |'
printf ' %s |' $clients
printf '\n|---|'
printf '%s' $(for _ in $clients; do printf -- '---|'; done)
echo
line 'layout 0, in memory, apart' 0 4 3 2 0 "${PAIRS-8000}"
line 'layout 0, in memory, one block' 0 4 3 2 1 "${PAIRS-8000}"
line 'layout 2, in memory, apart' 2 16 12 8 0 "${PAIRS-8000}"
line 'layout 2, in memory, one block' 2 16 12 8 1 "${PAIRS-8000}"
line 'layout 0, files, apart' 0 4 3 2 0 "${FILE_PAIRS-400}" --dir "$work/disks"
line 'layout 0, files, one block' 0 4 3 2 1 "${FILE_PAIRS-400}" --dir "$work/disks"
line 'layout 2, files, apart' 2 16 12 8 0 "${FILE_PAIRS-400}" --dir "$work/disks"
line 'layout 2, files, one block' 2 16 12 8 1 "${FILE_PAIRS-400}" --dir "$work/disks"
uptime
