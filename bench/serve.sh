#!/bin/sh
# How many requests a second are answered over loopback, and how long they take, beside a plain server.
#
#     bench/serve.sh [--plain] [--seconds N] [SETTINGS [OPL]]
#
# SETTINGS are those of car.toml where none are named. OPL is a map, or else a town of 40 by 40 nodes (that of
# `common.py`) is made. The plain server is `serve_plain.rs` over the search of `baseline.rs`, in threads, with the
# standard library alone; `--plain` measures it alone.
#
# Both serve with 1 and with 4 workers, and each is asked by as many clients as it has workers, for N seconds (3) a
# row and no longer: over connections that are kept (100 requests each), and over a new one for each request (10000
# at most). `refused` are requests that name an unknown option, so that no map is looked at: what a connection and its
# replies cost. `routes` are 400 random routes, and `beside` the same while the rows of a traffic file are published
# every 100 milliseconds. Times are by the clock, in milliseconds, from the request to the end of its reply (or of the
# publication's). Before it is measured, the replies to all targets are compared byte for byte. Clients and servers
# share the processors, and the two servers are measured one after the other in each row, by `serve_load.rs`, which
# speaks to loopback addresses alone. It needs rustc and python3.
set -eu

bench=$(cd "$(dirname "$0")" && pwd)
both='program plain'
seconds=3
while :; do
    case ${1-} in
        --plain) both=plain; shift ;;
        --seconds) seconds=$2; shift 2 ;;
        -*) echo 'usage: bench/serve.sh [--plain] [--seconds N] [SETTINGS [OPL]]' >&2; exit 2 ;;
        *) break ;;
    esac
done
settings=$(realpath "${1:-$bench/car.toml}")
if [ "$both" != plain ]; then
    program=$("$bench/common.py" program)
fi
scratch=$(mktemp -d)
map=$(realpath "${2:-$scratch/town.opl}")
servers=

# Ends the servers that still run.
leave() {
    for server in $servers; do
        kill "$server" 2> /dev/null || true
    done
    rm -rf "$scratch"
}
trap leave EXIT

baseline=$("$bench/common.py" baseline "$scratch")
rustc --edition 2024 -C opt-level=3 "$bench/serve_load.rs" -o "$scratch/serve_load"
if [ -z "${2-}" ]; then
    "$bench/common.py" town 40 > "$map"
fi
"$bench/common.py" routes "$settings" "$map" 400 > "$scratch/routes"
sed 's/$/\&step=true/' "$scratch/routes" > "$scratch/refused"
(cd "$scratch" && "$bench/traffic_rows.py" "$map" 500 0)

# start NAME WORKERS: starts a server, whose addresses are then $listen and $control and whose process is $server
start() {
    addresses=$("$scratch/serve_load" ports 2)
    listen=$(echo "$addresses" | sed -n 1p)
    control=$(echo "$addresses" | sed -n 2p)
    # What a server before it printed is not to be taken for its own.
    : > "$scratch/$1.out"
    if [ "$1" = plain ]; then
        timeout 600 "$baseline" serve "$map" "$settings" "$listen" "$control" "$2" > "$scratch/$1.out" &
    else
        timeout 600 "$program" serve "$map" "$settings" --listen "$listen" --control "$control" --workers "$2" \
            > "$scratch/$1.out" &
    fi
    server=$!
    servers="$servers $server"
    tries=0
    until grep -q '^ready$' "$scratch/$1.out"; do
        tries=$((tries + 1))
        if [ "$tries" -gt 600 ] || ! kill -0 "$server" 2> /dev/null; then
            echo "$1 is not ready" >&2
            exit 1
        fi
        sleep 0.1
    done
}

# stop: stops the server that was started last, and waits for its end
stop() {
    "$scratch/serve_load" stop "$control" > /dev/null
    wait "$server"
}

for name in $both; do
    start "$name" 1
    for targets in refused routes; do
        "$scratch/serve_load" replies "$listen" "$scratch/$targets"
    done > "$scratch/$name.replies"
    stop
done
if [ "$both" != plain ]; then
    cmp "$scratch/program.replies" "$scratch/plain.replies"
    echo "all $(wc -l < "$scratch/plain.replies") replies alike, byte for byte"
fi

# row NAME WORKERS CONNECTIONS REQUESTS: measures a server
row() {
    start "$1" "$2"
    targets=$scratch/$4
    publishing=
    if [ "$4" = beside ]; then
        targets=$scratch/routes
        publishing="$control $scratch/speeds.csv 100"
    fi
    # The addresses and names have no blanks.
    "$scratch/serve_load" load "$listen" "$2" "$3" "$seconds" "$targets" $publishing > "$scratch/row"
    stop
    awk -v name="$1" -v workers="$2" -v connections="$3" -v requests="$4" '{
        printf "%-8s %7d %-11s %-8s %12d %8.2f %8.2f %8.2f %6d", name, workers, connections, requests, $1, $2, $3, $4, $5
        if ($6 > 0) printf " %12d %8.2f", $6, $7
        printf "\n"
    }' "$scratch/row"
}

printf '%-8s %7s %-11s %-8s %12s %8s %8s %8s %6s %12s %8s\n' \
    server workers connections requests 'replies / s' median '99 %' most failed publications median
for workers in 1 4; do
    for requests in refused routes beside; do
        for connections in keep new; do
            for name in $both; do
                row "$name" "$workers" "$connections" "$requests"
            done
        done
    done
done
