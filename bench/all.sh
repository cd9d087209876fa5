#!/bin/sh
# Runs each script of this folder once, at a small size, over generated towns: do they all still run?
#
#     bench/all.sh
#
# Each has a line that says what it is, and how long it took by the clock or why it is left out; what one that fails has
# said stands below its line, and the status is then 1. The figures are of no use at such sizes, and aren't shown. Left
# out is what isn't there (rustc, a C compiler, GNU time), what proves or builds crates by rt,
# which takes longer than all others together, and the client in Qt.
set -eu

bench=$(cd "$(dirname "$0")" && pwd)
ROAD_ROUTER=$("$bench/common.py" program)
export ROAD_ROUTER
scratch=$(mktemp -d)
trap 'rm -rf "$scratch"' EXIT
cd "$scratch"
if [ -n "${BASELINE-}" ] || command -v rustc > /dev/null; then
    BASELINE=$("$bench/common.py" baseline "$scratch")
    export BASELINE
fi
car=$bench/car.toml
"$ROAD_ROUTER" town 10 > town.opl
ran=0 failed=0 left=0

# left_out NAME IS WHY
left_out() {
    left=$((left + 1))
    printf '%-17s %s: left out, %s\n' "$1" "$2" "$3"
}

# try NAME IS TOOLS WORDS..: runs a script that needs these tools with these words
try() {
    name=$1 is=$2
    for tool in $3; do
        if ! command -v "$tool" > /dev/null; then
            left_out "$name" "$is" "there is no $tool"
            return
        fi
    done
    shift 3
    ran=$((ran + 1))
    began=$(date +%s)
    if "$bench/$name" "$@" > said 2>&1; then
        printf '%-17s %s: %d s\n' "$name" "$is" $(($(date +%s) - began))
    else
        failed=$((failed + 1))
        printf '%-17s %s: FAILED\n' "$name" "$is"
        sed 's/^/    /' said | tail -n 20
    fi
}

plain=${BASELINE:-rustc}
time=/usr/bin/time
try reading.py 'reading, building, memory and routes beside the baseline' "$plain $time" \
    --tangles 3 --towns 10 --routes 20 --repeats 1
try replies.py 'replies of all services beside those of the baseline' "$plain" --tangles 3 --roads 100 "$car" town.opl
try large.py 'a map and one of four times its size beside the baseline' "$plain" --segments 1000
try road_map.py 'a map like those of real roads' '' 1000 roads.opl
try traffic.py 'lines of TRAFFIC beside the baseline' "$plain" --town 10 --rows 100 --repeats 1
try traffic_rows.py 'traffic files for a map' '' town.opl 10 10
cells=${OVERLAYS:-rustc}
try customization.py 'customization whole and of touched cells beside a baseline of overlays' "$cells" \
    --processors 1,2 --repeats 1 --rows 10 "$car" town.opl
try starts.py 'the whole start beside a baseline of overlays' "$cells" --repeats 1 "$car" town.opl
try processors.py 'tables and customization on one processor and on several' '' \
    --processors 2 --places 10 --repeats 1 "$car" town.opl
try queries.py 'routes and tables beside a baseline of overlays' "$cells" --pairs 20 --repeats 1 "$car" town.opl
try trips.py 'trips beside the table and the route of each' '' --trips 5 --repeats 1 "$car" town.opl
try through.py 'one walk through all places beside each leg by itself' '' \
    --routes 5 --places 2,5 --repeats 1 "$car" town.opl
try two.py 'two programs beside each other, here one beside itself' '' \
    --pairs 10 --repeats 1 "$ROAD_ROUTER" "$ROAD_ROUTER" "$car" town.opl
try targets.py 'reading of targets' '' --lines 50 "$car" town.opl
try snapping.sh 'snapping by a scan, a grid and an index' rustc town.opl 100
try serve.sh 'serving over loopback beside a plain server' "rustc $plain" --seconds 0.1
try hostile.sh 'maps made to stall the reader' "$time" 500
try hostile.sh 'streets that meet at one node' "$time" --stars 50
try hostile.sh 'restrictions over via ways' "$time" --vias 50
try refused.py 'requests for memory refused in turn' cc --step 40 restriction via-way refused table serve
if tests=$("$bench/common.py" tests 2> said); then
    try refused.py 'requests for memory of tests refused in turn' "cc $tests" --step 40 --tests
else
    left_out refused.py 'requests for memory of tests refused in turn' "$(cat said)"
fi
try faults.py 'faults from outside' '' --part 10
left_out partition.sh 'the halving into cells' 'it proves a crate'
left_out board.sh 'reads of a board' 'it builds a crate by rt try'
left_out unproved.py 'the program without its proof' 'it builds all crates'
left_out gate.py 'what the gate takes' 'it runs rt ci'
left_out bodies.py 'wrong bodies beside the gate' 'it runs rt ci'
left_out qt_client 'replies as a client in Qt reads them' 'it is built and asked by hand'
echo "all: $ran ran, $failed failed, $left left out"
[ "$failed" = 0 ]
