#!/usr/bin/env bash
# Times the built program on long scripts: the workload of a seed, 60,000 lines, a million turns, and
# blocks side by side in files. It prints what each took and how many events its log has.
set -eu
cd -- "$(dirname -- "${BASH_SOURCE[0]}")/.."
./rozo build
rozo=$PWD/crates/rozo_program/out/rozo_program
work=$(mktemp -d)
trap 'rm -rf -- "$work"' EXIT

# The volume of four nodes with so many pairs of cells each.
volume() {
    local nodes= sid
    for sid in 1 2 3 4; do
        nodes+="${nodes:+,}{\"sid\":$sid,\"cells\":$1}"
    done
    echo "volume {\"layout\":0,\"bsize\":4096,\"clusters\":[{\"cid\":1,\"nodes\":[$nodes]}]}"
}

# Times a script by its name.
timed() {
    local name=$1
    shift
    TIMEFORMAT="$name: %R seconds, %U of them in the program"
    time "$rozo" "$@" <"$work/script" >"$work/out"
    tail -n 1 "$work/out"
}

: >"$work/script"
timed 'the workload of seed 1' load 1 --disks 16

# 10,000 writes and as many reads of 4,000 blocks, with a change of times before each, and a rest.
{
    volume 4000
    echo 'op c1 create /f'
    for ((i = 0; i < 10000; i++)); do
        echo "op c1 setattr /f 420 $i"
        echo "op c1 put /f $((i % 4000)) t:$i"
        echo "op c2 getattr /f"
        echo "op c2 setattr /f 420 $i"
        echo "op c2 get /f $((i % 4000))"
        echo "op c2 lookup /f"
    done
    echo rest
} >"$work/script"
timed "$(wc -l <"$work/script") lines" replay --disks 4

# 5,000 blocks, and a node that is lost and rebuilt 38 times.
{
    volume 5000
    echo 'op c1 create /f'
    for ((i = 0; i < 5000; i++)); do echo "op c1 put /f $i t:$i"; done
    echo rest
    for ((i = 0; i < 38; i++)); do
        echo 'lose n2'
        echo 'op r1 rebuild n2'
        echo rest
    done
} >"$work/script"
timed 'a million turns' replay --disks 4

# 2,000 writes and as many reads over disks in files, each write brought onto three disks.
{
    volume 2000
    echo 'op c1 create /f'
    for ((i = 0; i < 2000; i++)); do echo "op c1 put /f $i g:4096:1"; done
    for ((i = 0; i < 2000; i++)); do echo "op c1 get /f $i"; done
    echo rest
} >"$work/script"
mkdir "$work/disks"
timed '4,000 blocks in files' replay --disks 4 --dir "$work/disks"
