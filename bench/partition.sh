#!/bin/sh
# How long halving takes and what it costs: time and greatest memory of `cells` at
# 100000, 1000000 and 10000000 scattered midpoints, or at the counts given as words.
#
#     bench/partition.sh [COUNT..]
#
# It makes a small program outside the repository, over a copy of the crate, proves and
# builds it, which takes some minutes, and runs it once for each count. The limits are
# the server's: 256, 4096, 65536, 1048576. It needs `rt` on the path and GNU time.
#
# `cells` is the time of the call, `processor` that of the whole program. Where the time
# grows as n log^2 n or slower the next column doesn't rise, and where memory grows as n
# the last one stays level; eight of its bytes are the midpoints themselves.
set -eu

top=$(cd "$(dirname "$0")/.." && pwd)
scratch=$(mktemp -d)
trap 'rm -rf "$scratch"' EXIT
mkdir "$scratch/crates"
cp -R "$top/crates/cell_partition" "$scratch/crates/"
rm -rf "$scratch/crates/cell_partition/out" "$scratch/crates/cell_partition/must-fail"
cd "$scratch"
git init -q
printf 'cell_partition: thiserror\npartition_time: cell_partition anyhow\n' > crates.txt
mkdir -p crates/partition_time/src
cp "$top/bench/partition_time.txt" crates/partition_time/src/main.rt
cd crates/partition_time
rt run -- 10 > build.log 2>&1 || { tail -n 20 build.log; exit 1; }

printf '%10s %9s %11s %20s %11s %8s\n' count cells processor 'ns / (n log2 n ^ 2)' kilobytes bytes/n
for count in ${@:-100000 1000000 10000000}; do
    /usr/bin/time -o used -f '%U %M' out/partition_time "$count" > cells
    awk -v n="$count" -v c="$(cat cells)" '{
        log2 = log(n) / log(2)
        printf "%10d %8.2fs %10.2fs %20.2f %11d %8.1f\n", n, c, $1, $1 * 1e9 / (n * log2 * log2), $2, $2 * 1024 / n
    }' used
done
