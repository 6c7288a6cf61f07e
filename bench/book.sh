#!/usr/bin/env bash
# Proves and builds rz_bench and runs it on books with 1, 2 and 4 threads: it prints how many events there are and the
# microseconds that one took its thread. Then it prints the greatest memory of a run without any event and of one with a
# million, in KiB. EVENTS is the number of events that each thread adds. It needs GNU time.
set -eu
here="$(cd "$(dirname "$0")" && pwd)"
crate="$here/../crates/rz_bench"
program="$crate/out/rz_bench"
events="${EVENTS:-10000000}"
(cd "$crate" && rt run -- book 1 1 >/dev/null)
for threads in 1 2 4; do
    "$program" book "$threads" "$events" times
done
for events in 0 1000000; do
    /usr/bin/time -f 'memory %M KiB' "$program" book 1 "$events"
done
