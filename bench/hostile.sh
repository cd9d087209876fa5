#!/bin/sh
# How long maps made to be hard take to be read and built, and to be started on.
#
#     bench/hostile.sh [SEGMENTS..]
#     bench/hostile.sh --stars [STREETS..]
#     bench/hostile.sh --vias [N..]
#
# The first: one way to and fro between two nodes, with `only_` restrictions that forbid its own
# turns, or without them.
# It prints processor seconds of `road_router check` at 10000, 40000 and 160000 segments, or at
# those given, without restrictions and with 1, 50 and 200, each the least of five runs, and the
# ratio of the last to the first. Without them, and with one, such a map has more turns than a
# network may have from 8193 segments on, and is refused once these are counted. With more, the
# columns must not rise from left to right, and must rise no faster than the segments from row to
# row.
#
# The second: so many streets that meet at one node (500, 1000, 2000 and 4000, or those given).
# It prints processor seconds and the peak in megabytes of `check`, of `ask` over one route, whose
# start customizes the cells, and of `ask` over a route and a line of TRAFFIC, each run once.
#
# The third: restrictions over via ways, of each of these kinds and of a size N (1000, 2000, 4000 and
# 8000, or those given):
#     ends    one, whose `from` and `to` ways pass the ends of the path N times
#     long    N/64, each over a path of its own of 64 vertices
#     longer  the same over paths of 65, which are ignored
#     others  N over one via way, each from another way and to another way
#     same    one, N times
#     only    N `only_` restrictions from one way over one via way, each to another way
#     square  N from one way that passes the beginning of the path N times, each to another way
#     fan     N/16 `only_` restrictions, from one way that passes the beginning of the paths N/16 times over one way each
#             and one for all, behind which one of N ways on is left: (N/16)^2 copies stand before N turns
#     full    16384 over one path of 64 vertices, each from another way: 2^20 copies, as many as there may be
#     past    one more: too many
# The last two are run where no N is given. It prints processor seconds and the peak in megabytes of
# `check`, the least of three runs, of the map without these restrictions and with them, the ratio of
# the seconds, the same of one run of `ask` over a route to the middle of the via way, which has a copy
# for each way before it, and what comes of the map: how many restrictions apply and how many are
# ignored, or why it is refused. Rows must rise no faster than N, but for `others`, where N ways go on
# into N by N times N arcs, and `fan`, which has to rise no faster than its copies.
#
# It needs GNU time and python3.
set -eu

bench=$(cd "$(dirname "$0")" && pwd)
car=$bench/car.toml
program=$("$bench/common.py" program)
scratch=$(mktemp -d)
trap 'rm -rf "$scratch"' EXIT

# map SEGMENTS RESTRICTIONS: the map, on standard output
map() {
    python3 - "$1" "$2" <<'END'
import sys
segments, restrictions = int(sys.argv[1]), int(sys.argv[2])
for node, (lon, lat) in enumerate([(13.0, 53.0), (13.01, 53.0), (13.0, 53.01), (13.01, 53.01)], 1):
    print(f"n{node} v1 dV T x{lon} y{lat}")
fro = ",".join("n1" if i % 2 == 0 else "n2" for i in range(segments + 1))
print(f"w1 v1 dV Thighway=residential N{fro}")
print("w2 v1 dV Thighway=residential Nn1,n3")
print("w3 v1 dV Thighway=residential Nn2,n4")
for i in range(restrictions):
    via, to = ((1, 2), (2, 3))[i % 2]
    print(f"r{i + 1} v1 dV Ttype=restriction,restriction=only_straight_on Mw1@from,n{via}@via,w{to}@to")
END
}

# star STREETS: the map, on standard output
star() {
    python3 - "$1" <<'END'
import math, sys
streets = int(sys.argv[1])
print("n1 v1 dV T x13.0 y53.0")
for street in range(streets):
    angle = 2 * math.pi * street / streets
    print(f"n{street + 2} v1 dV T x{13.0 + 0.1 * math.cos(angle):.7f} y{53.0 + 0.06 * math.sin(angle):.7f}")
for street in range(streets):
    print(f"w{street + 1} v1 dV Thighway=residential Nn1,n{street + 2}")
END
}

# spent COMMAND LINES: processor seconds and megabytes of a command over these lines of input, which may refuse the map
spent() {
    status=0
    printf "$2" | /usr/bin/time -q -o "$scratch/used" -f '%U %S %M' "$program" "$1" "$scratch/map.opl" "$car" \
        > "$scratch/out" 2>&1 || status=$?
    if [ "$status" != 0 ] && [ "$status" != 3 ]; then
        echo "$1 ended with status $status" >&2
        exit 1
    fi
    awk '{ printf "%.2f %d\n", $1 + $2, $3 / 1024 }' "$scratch/used"
}

if [ "${1-}" = --stars ]; then
    shift
    route='GET /route/v1/car/13.09,53.0;12.91,53.0?overview=false\n'
    printf '%8s %8s %6s %8s %6s %8s %6s\n' streets check MB ask MB TRAFFIC MB
    for streets in ${@:-500 1000 2000 4000}; do
        star "$streets" > "$scratch/map.opl"
        row="$streets $(spent check '')"
        row="$row $(spent ask "$route")"
        row="$row $(spent ask "${route}TRAFFIC - -\\n")"
        echo "$row" | awk '{ printf "%8d %8.2f %6d %8.2f %6d %8.2f %6d\n", $1, $2, $3, $4, $5, $6, $7 }'
    done
    exit
fi

# vias KIND N WITH: the map without the restrictions over via ways (WITH is 0) or with them, on standard output
vias() {
    python3 - "$1" "$2" "$3" <<'END'
import sys
kind, n, ways, relations = sys.argv[1], int(sys.argv[2]), [], []
nodes = [(13.0, 53.0), (13.01, 53.0)]

def node(east):
    """A node of its own, west of the first one or east of the second one."""
    far, up = divmod(len(nodes), 1000)
    nodes.append((13.01 + 0.0001 * (far + 1) if east else 13.0 - 0.0001 * (far + 1), 53.0 + 0.00001 * up))
    return len(nodes)

def way(*refs):
    ways.append(f"w{len(ways) + 1} v1 dV Thighway=residential,oneway=yes N{','.join(f'n{ref}' for ref in refs)}")
    return len(ways)

def restrict(value, *members):
    told = ",".join(f"{member}@{role}" for member, role in members)
    relations.append(f"r{len(relations) + 1} v1 dV Ttype=restriction,restriction={value} M{told}")

def over(value, first, along, last):
    if sys.argv[3] == "1":
        restrict(value, (f"w{first}", "from"), *((f"w{each}", "via") for each in along), (f"w{last}", "to"))

def into():
    return way(node(False), 1)

def out():
    return way(2, node(True))

def often_into(times):
    """A way that passes the first node so many times, and may not go on from there along itself."""
    refs = [ref for _ in range(times) for ref in (node(False), 1)]
    own = way(*refs)
    restrict("no_straight_on", (f"w{own}", "from"), ("n1", "via"), (f"w{own}", "to"))
    return own

def often_out():
    refs = [ref for _ in range(n) for ref in (2, node(True))]
    own = way(*refs)
    restrict("no_straight_on", (f"w{own}", "from"), ("n2", "via"), (f"w{own}", "to"))
    return own

def path(length):
    """A way from the first node to the second one."""
    bends = []
    for number in range(1, length):
        nodes.append((13.0 + 0.01 * number / length, 53.0))
        bends.append(len(nodes))
    return way(1, *bends, 2)

if kind == "ends":
    along = path(1)
    over("no_straight_on", often_into(n), [along], often_out())
    out()
elif kind in ("long", "longer"):
    for road in range(max(1, n // 64)):
        length, piece, begin = (64, 16, len(nodes) + 1) if kind == "long" else (65, 65, len(nodes) + 1)
        nodes += [(13.02 + 0.0001 * number, 53.0 + 0.0001 * road) for number in range(length + 4)]
        along = [way(*range(begin + at, begin + at + piece + 1)) for at in range(1, length, piece)]
        first, last, _ = (way(*ends) for ends in ((begin, begin + 1), (begin + length + 1, begin + length + 2), (begin + length + 1, begin + length + 3)))
        over("no_straight_on", first, along, last)
elif kind == "others":
    along = path(1)
    for _ in range(n):
        over("no_straight_on", into(), [along], out())
elif kind == "same":
    along, first, last, _ = path(1), into(), out(), out()
    for _ in range(n):
        over("no_straight_on", first, [along], last)
elif kind == "only":
    along, first = path(1), into()
    for _ in range(n):
        over("only_straight_on", first, [along], out())
elif kind == "square":
    along, first = path(1), often_into(n)
    for _ in range(n):
        over("no_straight_on", first, [along], out())
elif kind == "fan":
    nodes.append((13.005, 53.0))
    middle = len(nodes)
    along, first, last, _ = way(middle, 2), often_into(n // 16), out(), often_out()
    for _ in range(n // 16):
        over("only_straight_on", first, [way(1, middle), along], last)
else:
    along, last, _ = path(64), out(), out()
    for _ in range(16384 if kind == "full" else 16385):
        over("no_straight_on", into(), [along], last)
for number, (lon, lat) in enumerate(nodes, 1):
    print(f"n{number} v1 dV T x{lon:.7f} y{lat:.7f}")
print(*ways, *relations, sep="\n")
END
}

# vias_row KIND N: a row of the table of such maps
vias_row() {
    row="$1 $2"
    for with in 0 1; do
        vias "$1" "$2" "$with" > "$scratch/map.opl"
        for run in 1 2 3; do
            spent check ''
        done > "$scratch/runs"
        row="$row $(sort -n "$scratch/runs" | head -n 1)"
    done
    told=$(awk '/^(restrictions|ignored) / { told = told " " $0 } /^too many / { told = " " $0 } END { print told }' "$scratch/out")
    row="$row $(spent ask 'GET /route/v1/car/12.9,53.0;13.005,53.0?overview=false\n')"
    echo "$row $told" | awk '{
        ratio = $5 / ($3 > 0 ? $3 : 0.01)
        told = $9
        for (i = 10; i <= NF; i++) told = told " " $i
        printf "%-7s %6d %8.2f %6d %8.2f %6d %7.2f %8.2f %6d  %s\n", $1, $2, $3, $4, $5, $6, ratio, $7, $8, told
    }'
}

if [ "${1-}" = --vias ]; then
    shift
    printf '%-7s %6s %8s %6s %8s %6s %7s %8s %6s\n' kind N without MB with MB ratio ask MB
    for kind in ends long longer others same only square fan; do
        for size in ${@:-1000 2000 4000 8000}; do
            vias_row "$kind" "$size"
        done
    done
    if [ $# = 0 ]; then
        vias_row full 16384
        vias_row past 16385
    fi
    exit
fi

# least: the least processor seconds of five runs of `check`
least() {
    for run in 1 2 3 4 5; do
        spent check ''
    done > "$scratch/runs"
    sort -n "$scratch/runs" | head -n 1 | cut -d ' ' -f 1
}

printf '%10s %8s %8s %8s %8s %8s\n' segments none 1 50 200 ratio
for segments in ${@:-10000 40000 160000}; do
    row=
    for restrictions in 0 1 50 200; do
        map "$segments" "$restrictions" > "$scratch/map.opl"
        row="$row $(least)"
    done
    echo "$segments $row" | awk '{ printf "%10d %8.2f %8.2f %8.2f %8.2f %8.2f\n", $1, $2, $3, $4, $5, $5 / ($2 > 0 ? $2 : 0.01) }'
done
