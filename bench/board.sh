#!/bin/sh
# How many reads a second the seats of a board make, alone and while values are published.
#
#     bench/board.sh [READS [PAUSE]]
#
# It makes a small program outside the repository, over a copy of the crate, and runs it
# three times by `rt try`, which builds it and proves nothing: the program is for timing
# alone. Each run opens a board with
# 1 and then 4 seats, a thread to each, and lets each seat read READS times (1000000):
# with no publication, beside a desk that publishes and pauses PAUSE microseconds (1000),
# and beside a desk that publishes without a pause. A read is one `enter`: the pointer is
# taken, its number looked at, and let go. Times are by the clock. The ratio is to the
# reads of the same run with no publication. It needs `rt` on the path.
set -eu

top=$(cd "$(dirname "$0")/.." && pwd)
reads=${1:-1000000}
pause=${2:-1000}
scratch=$(mktemp -d)
trap 'rm -rf "$scratch"' EXIT
mkdir "$scratch/crates"
cp -R "$top/crates/metric_publish" "$scratch/crates/"
rm -rf "$scratch/crates/metric_publish/must-fail"
cd "$scratch"
git init -q
{
    grep '^metric_publish' "$top/crates.txt"
    printf 'board_time: metric_publish left_right crossbeam_utils atomic_table logbook core anyhow\n'
} > crates.txt
cp "$top/HANDLES" .
mkdir -p crates/board_time/src
cp "$top/bench/board_time.txt" crates/board_time/src/main.rt
cd crates/board_time

printf '%5s %-22s %14s %7s %13s\n' seats desk 'reads / second' ratio publications
for run in 1 2 3; do
    for seats in 1 4; do
        rt try -- "$seats" "$reads" "$pause" | grep -v '^run=' | awk -v seats="$seats" -v reads="$reads" '{
            rate = seats * reads / $2
            if (NR == 1) alone = rate
            printf "%5d %-22s %14.0f %7.2f %13d\n", seats, $1, rate, rate / alone, $3
        }'
    done
done
