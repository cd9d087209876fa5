#!/bin/sh
# Starts road_router and nginx on loopback, and looks at the page: a route by two clicks, its line and its steps.
#
#     examples/try.sh [--stay]     --stay leaves both running until it is interrupted
#
# It needs nginx and Leaflet (Debian: nginx-light, libjs-leaflet), and for the page chromium and chromium-driver; where these
# are missing, it asks the same requests as the page by curl. The program is that of the environment variable ROAD_ROUTER,
# or else crates/road_router/out/road_router; the map that of ROADS, or else a generated town of 20 by 20.
# A picture of the page is left as PICTURE, where that is set. Ends with a failing status where anything is missing.
set -eu

here=$(cd "$(dirname "$0")" && pwd)
top=$(dirname "$here")
program=${ROAD_ROUTER:-$top/crates/road_router/out/road_router}
run=$(mktemp -d)
chmod 755 "$run"
server= proxy=
stop() {
    [ -z "$proxy" ] || kill "$proxy" 2> /dev/null || true
    [ -z "$server" ] || curl -s -o "$run/stopped" -X POST http://127.0.0.1:5001/control/v1/stop || true
    wait
    rm -rf "$run"
}
trap stop EXIT
trap 'exit 1' INT TERM

if [ -n "${ROADS-}" ]; then
    map=$ROADS lon=13.262 lat=53.557
else
    "$program" town 20 > "$run/town.opl"
    map=$run/town.opl lon=0.0095 lat=0.0095
fi
"$program" serve "$map" "$top/bench/car.toml" --listen 127.0.0.1:5000 --control 127.0.0.1:5001 --workers 4 > "$run/said" &
server=$!
sed -e "s|RUN/|$run/|; s|QUERIES|127.0.0.1:5000|; s|LISTEN|127.0.0.1:8080|; s|PAGES|$here|" "$here/nginx.conf" > "$run/nginx.conf"
nginx -c "$run/nginx.conf" -g 'daemon off;' &
proxy=$!
tries=0
until grep -q ready "$run/said" && curl -sf -o "$run/page" http://127.0.0.1:8080/; do
    tries=$((tries + 1))
    [ "$tries" -lt 100 ] || { echo "try: server or proxy did not start"; exit 1; }
    sleep 0.1
done

# what an operator has to see: no control port, no other method, pages of other origins, a packed reply
status() { curl -s -o "$run/reply" -w '%{http_code}' "$@"; }
[ "$(status -X POST http://127.0.0.1:8080/control/v1/stop)" != 200 ] || { echo "try: the control port is open"; exit 1; }
[ "$(status -X POST http://127.0.0.1:8080/nearest/v1/car/$lon,$lat)" = 403 ] || { echo "try: POST is let through"; exit 1; }
curl -s -D "$run/head" -o "$run/reply" --compressed "http://127.0.0.1:8080/nearest/v1/car/$lon,$lat?number=100"
grep -qi '^access-control-allow-origin: \*' "$run/head" && grep -qi '^content-encoding: gzip' "$run/head" && grep -q '"code":"Ok"' "$run/reply" ||
    { echo "try: the reply has not what a page needs:"; cat "$run/head"; exit 1; }

if command -v chromedriver > /dev/null; then
    python3 "$here/two_clicks.py" "http://127.0.0.1:8080/?lon=$lon&lat=$lat&zoom=15&tiles=0" ${PICTURE:+"$PICTURE"}
else
    echo "try: chromium is not there, so the page is not loaded"
    curl -s "http://127.0.0.1:8080/route/v1/car/$lon,$lat;$lon,$lat?overview=full&geometries=geojson&steps=true" | grep -q '"code":"Ok"'
fi
echo "try: all well"
if [ "${1-}" = --stay ]; then
    echo "the page: http://127.0.0.1:8080/?lon=$lon&lat=$lat&zoom=15"
    wait "$proxy"
fi
