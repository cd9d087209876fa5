#!/bin/sh
# What it costs to snap a point: a scan of all segments, a plain grid searched ring by ring, and the index that
# `snap_index` has, all three written plainly in Rust (`snapping_plain.rs`) and compared at each point.
#
#     bench/snapping.sh OPL [POINTS]
#
# It takes POINTS random points in the box of the map (3000), for 1, 10 and 100 places each; the scan is run at
# every tenth of them. Times are processor time of the thread. `different` counts the points where two of the three
# find other places, and must be 0. It needs `rustc` and Linux.
set -eu

bench=$(cd "$(dirname "$0")" && pwd)
scratch=$(mktemp -d)
trap 'rm -rf "$scratch"' EXIT
rustc --edition 2024 -C opt-level=3 -C codegen-units=1 "$bench/snapping_plain.rs" -o "$scratch/plain"
for number in 1 10 100; do
    "$scratch/plain" "$1" "${2:-3000}" "$number"
done
