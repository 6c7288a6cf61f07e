#!/usr/bin/env bash
# Refuses memory to the program, one allocation at a time: the first one, the second one, and so on until twenty runs in a row are
# whole, over four plays. Each run has to end with status 70 and a first part of the text, or with 0 and all of it, and never with a
# word of a sanitizer.
#
#   bench/memory.sh [PROGRAM]    one that `rt try --fail-alloc 305419896` compiled; without it, that is done first
#
# The program is compiled once, unproved and with the checks of `rt try`, for an allocation whose number never comes. Each run then has
# another number in the place of that one.
set -u
cd -- "$(dirname -- "${BASH_SOURCE[0]}")/.." || exit 2
work=$(mktemp -d) || exit 2
trap 'rm -rf -- "$work"' EXIT
never=305419896 # 0x12345678
failed=0

# Runs what takes some seconds, and copies the program meanwhile.
compile() {
    local room=$work/room found
    mkdir "$room"
    (cd crates/rozo_program && TMPDIR=$room exec setsid rt try --fail-alloc $never -- load 1 --disks 16) >/dev/null 2>&1 </dev/null &
    while kill -0 $! 2>/dev/null; do
        sleep 0.2
        found=$(find "$room" -name program -type f -perm -u+x 2>/dev/null | head -n 1)
        [ -n "$found" ] && cp -- "$found" "$work/program" 2>/dev/null || continue
        [ "$("$work/program" replay 2>/dev/null </dev/null)" = "refused usage" ] && break
    done
    kill -- -$! 2>/dev/null || kill $! 2>/dev/null
    wait $! 2>/dev/null
    [ -x "$work/program" ]
}

if [ $# -gt 0 ]; then cp -- "$1" "$work/program"; else compile; fi || exit 2
mapfile -t places < <(LC_ALL=C grep -obUaP '\x78\x56\x34\x12' "$work/program" | cut -d: -f1)
[ ${#places[@]} = 2 ] || {
    echo "memory: the number of the allocation stands ${#places[@]} times in the program, and not twice" >&2
    exit 2
}

# The allocation of this number fails.
refuse() {
    local place bytes
    bytes=$(printf '\\x%02x\\x%02x\\x%02x\\x%02x' $(($1 & 255)) $(($1 >> 8 & 255)) $(($1 >> 16 & 255)) $(($1 >> 24 & 255)))
    for place in "${places[@]}"; do
        printf "$bytes" | dd of="$work/program" bs=1 seek="$place" conv=notrunc status=none
    done
}

# Whether one run went as it may: the text that is wanted, and the status that came. A run that is whole says 0, one that was refused 1.
judge() {
    grep -q Sanitizer "$work/err" && return 2
    case $2 in
    0) cmp -s -- "$1" "$work/out" ;;
    70) cmp -s -n "$(stat -c %s "$work/out")" -- "$1" "$work/out" && return 1 ;;
    *) false ;;
    esac || return 2
}

# Refuses each allocation of a play: its example, and the words.
play() {
    local example=$1 number refused=0 whole=0
    shift
    for ((number = 1; whole < 20; number++)); do
        refuse "$number"
        timeout 60 "$work/program" "$@" <"examples/$example.rozo" >"$work/out" 2>"$work/err"
        judge "examples/$example.out" $?
        case $? in
        0) whole=$((whole + 1)) ;;
        1) refused=$((refused + 1)) whole=0 ;;
        *)
            failed=$((failed + 1)) whole=0
            echo "memory: $example, allocation $number:" >&2
            cat "$work/out" "$work/err" >&2
            ;;
        esac
    done
    echo "$example: $((number - 21)) allocations; where one is refused, $refused plays end with status 70"
}

play ordinary/ordinary-path replay --disks 4
play lost-disks/read-before-the-rebuild replay --disks 4
play faults/a-stop-within-a-put-2-1 replay --disks 4
play run/one-client run --disks 4
echo "$failed runs went another way"
[ $failed = 0 ]
