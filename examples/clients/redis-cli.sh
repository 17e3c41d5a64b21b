#!/bin/sh
# A queue of jobs with redis-cli (Debian: redis-tools).
#
# usage: redis-cli.sh PORT
#
# The server is `sr_server --listen 127.0.0.1:PORT --policy examples/policies/renderers.toml`, without a stream `jobs`.

set -eu
port=$1
folder=$(mktemp -d)
trap 'rm -r "$folder"' EXIT

jobs() {
    redis-cli -h 127.0.0.1 -p "$port" "$@"
}

expect() { # FOUND WANTED
    [ "$1" = "$2" ] || { echo "found '$1', not '$2'"; exit 1; }
}

produce() {
    for kind in "$@"; do
        jobs XADD jobs '*' kind "$kind" file "$kind.raw" > /dev/null
    done
}

# The ids among the lines that redis-cli prints of a reply.
ids() {
    grep -E '^[0-9]+-[0-9]+$' || true
}

# Does the jobs that are pending for it, recovered ones among them, then new ones. Ends when that many are done.
work() { # NAME WANTED
    done=0
    start=0
    while [ "$done" -lt "$2" ]; do
        entries=$(jobs XREADGROUP GROUP render "$1" COUNT 2 BLOCK 5000 STREAMS jobs "$start" | ids)
        for id in $entries; do
            done=$((done + $(jobs XACK jobs render "$id")))
        done
        # its own pending entries until there are none, then new ones, and so on
        if [ "$start" = 0 ] && [ -z "$entries" ]; then start='>'; else start=0; fi
    done
    echo "$done"
}

expect "$(jobs PING)" PONG
expect "$(jobs XGROUP CREATE jobs render 0 MKSTREAM)" OK
work gpu 6 > "$folder/done" &
sleep 0.2
produce image video image image video image
wait $!
expect "$(cat "$folder/done")" 6
echo 'a waiting worker did 6 jobs'

produce image video image image
expect "$(jobs XREADGROUP GROUP render old STREAMS jobs '>' | ids | wc -l)" 4
claimed=$(jobs XAUTOCLAIM jobs render cpu 0 0 COUNT 1 JUSTID | ids | tail -n 1)
expect "$(jobs XACK jobs render "$claimed")" 1
echo 'of 4 jobs of a worker that is gone, one was claimed'

expect "$(jobs XINFO STREAM jobs | sed -n '1,2p' | tr '\n' ' ')" 'length 10 '
expect "$(jobs XINFO GROUPS jobs | sed -n '1,6p' | tr '\n' ' ')" 'name render consumers 3 pending 3 '
expect "$(jobs XINFO CONSUMERS jobs render | grep -c '^name$')" 3
jobs RECOVER.PLAN jobs render DEAD old > "$folder/plan"
jobs RECOVER.RUN jobs render DEAD old > "$folder/run"
expect "$(sed 1d "$folder/run")" "$(sed 1d "$folder/plan")"
expect "$(sed -n 1p "$folder/run")" 'done'
expect "$(jobs XPENDING jobs render - + 10 old)" ''
echo "the other 3 were recovered, at a cost of $(sed -n 2p "$folder/run")"
jobs RECOVER.BOARD jobs render
expect "$(work gpu 3)" 3
expect "$(jobs XPENDING jobs render | sed -n 1p)" 0
echo 'and finished by the worker that got them'

# One connection, four commands: two are refused, and the others are answered.
printf 'XLEN jobs\nXADD jobs\nNOSUCH\nPING\n' | jobs > "$folder/refused"
expect "$(sed -n 1p "$folder/refused")" 10
expect "$(grep -c ^ERR "$folder/refused")" 2
grep ^ERR "$folder/refused" | sed 's/^/refused: /'
expect "$(grep -v '^$' "$folder/refused" | tail -n 1)" PONG

# Many at once, by repetition over one connection.
expect "$(jobs -r 100 XADD jobs '*' kind image file more.raw | ids | wc -l)" 100
echo "the same server went on: $(jobs XLEN jobs) jobs in all"
