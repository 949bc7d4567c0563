#!/usr/bin/env bash
# Three sites over the message broker mosquitto. Each is ended once by SIGKILL; an audit of their journals comes last.
#
# usage: three_sites.sh [PROGRAM]      (without PROGRAM the one that `make build` makes)
#        three_sites.sh --look         only looks for what it wants
#
# A site takes its lines from the topic bank/N, on which clients publish as well; wire.py publishes what it sends. The
# broker keeps what comes for a site that is down (a session of its own, QoS 1), so each line is delivered at least
# once to mosquitto_sub. What that has taken and its site hasn't recorded is lost with the site: for messages the other
# sites make up for it as they start again, and a client asks again if it got no reply.
set -eu

here=$(cd "$(dirname "$0")" && pwd)
program=${1:-$here/../../crates/rbbank/out/rbbank}
port=${BROKER_PORT:-18831}
bank='{"accounts":[["ann",0],["bob",1000]],"sites":3,"version":1}'
PATH=$PATH:/usr/sbin:/sbin

case $program in -h | --help) sed -n '2,10s/^# \{0,1\}//p' "$0"; exit 0 ;; esac
for command in mosquitto mosquitto_pub mosquitto_sub python3; do
    if ! command -v "$command" > /dev/null; then
        echo "broker: no $command here; on Debian: apt-get install mosquitto mosquitto-clients python3" >&2
        exit 1
    fi
done
[ "$program" != --look ] || exit 0
[ -x "$program" ] || { echo "broker: $program: no program" >&2; exit 1; }

folder=$(mktemp -d)
trap 'kill $(cat "$folder"/*.pid 2> /dev/null) 2> /dev/null; wait; rm -rf "$folder"' EXIT

fail() { echo "broker: $*" >&2; exit 1; }

# Runs a command, again and again until it succeeds, for half a minute and more.
until_true() {
    for _ in $(seq 300); do
        if "$@" > /dev/null 2>&1; then return 0; fi
        sleep 0.1
    done
    fail "this took too long: $*"
}

# The site N: what is published for it, the site, and what publishes its messages. More words go to the site.
start() {
    { echo $BASHPID > "$folder/in$1.pid"; echo "$bank"
      exec mosquitto_sub -p "$port" -q 1 -c -i "site$1" -t "bank/$1"; } |
        { echo $BASHPID > "$folder/site$1.pid"; exec "$program" site --me "$1" --journal "$folder/$1.journal" "${@:2}"; } |
        "$here/../tools/wire.py" --me "$1" --sites 3 --to "mosquitto_pub -p $port -q 1 -l -t bank/{}" \
            >> "$folder/$1.replies" &
}

# Whether site N has ended.
ended() { ! kill -0 "$(cat "$folder/site$1.pid")"; }

# Ends site N at once, with what reads for it.
crash() {
    kill -9 "$(cat "$folder/site$1.pid")" "$(cat "$folder/in$1.pid")"
    until_true ended "$1"
    rm "$folder/site$1.pid" "$folder/in$1.pid"
}

# Ends site N at the end of its input.
close() {
    kill "$(cat "$folder/in$1.pid")"
    until_true ended "$1"
    rm "$folder/site$1.pid" "$folder/in$1.pid"
}

ask() { mosquitto_pub -p "$port" -q 1 -t "bank/$1" -m "$2"; echo "site $1  $2"; }
replied() { until_true grep -qF "$2" "$folder/$1.replies"; echo "site $1                                  $2"; }
last_is() { [ "$(tail -n 1 "$folder/$1.replies")" = "$2" ]; }

# The balance of an account at site N is asked for until it is the wanted one.
has() {
    mosquitto_pub -p "$port" -q 1 -t "bank/$1" -m "{\"balance\":\"$2\"}"
    sleep 0.2
    last_is "$1" "{\"balance\":$3}"
}

printf 'listener %s 127.0.0.1\nallow_anonymous true\nlog_type error\n' "$port" > "$folder/mosquitto.conf"
mosquitto -c "$folder/mosquitto.conf" &
echo $! > "$folder/broker.pid"
for site in 0 1 2; do
    # The session begins before anything is published for the site.
    until_true mosquitto_sub -p "$port" -q 1 -c -i "site$site" -t "bank/$site" -E
    start "$site" --new
done

ask 0 '{"deposit":["ann",500]}';        replied 0 '{"kind":"deposit","name":"B0.1"}'
ask 0 '{"transfer":["bob","ann",300]}'; replied 0 '{"kind":"transfer","name":"R1"}'
ask 0 '{"pass":2}';                     replied 2 '{"taken":1}'
replied 2 '{"applied":"R1"}'
crash 2; echo 'site 2  is ended by SIGKILL'
ask 1 '{"deposit":["bob",40]}';         replied 1 '{"kind":"deposit","name":"B1.1"}'
ask 2 '{"withdraw":["ann",700]}'; echo 'site 2  is started again'
start 2;                                replied 2 '{"kind":"withdraw","name":"R2"}'
replied 0 '{"applied":"R2"}'
for site in 0 1; do crash "$site"; start "$site"; done; echo 'sites 0 and 1 are ended and started again'
for site in 0 1 2; do
    until_true has "$site" ann 100
    until_true has "$site" bob 740
    echo "site $site  has 100 for ann, 740 for bob"
done
for site in 0 1 2; do close "$site"; done

echo 'The audit finds this order of what the sites recorded:'
"$program" audit "$folder/0.journal" "$folder/1.journal" "$folder/2.journal"
