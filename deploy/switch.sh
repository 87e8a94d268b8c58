#!/bin/sh
# A restart by a second server, without a pause: docs/operating.md, Restart and upgrade, has each step and its reason. Copy it
# to /usr/local/sbin/jaeger_one_switch (mode 755), and run it as root, by hand or by cron:
#
#   jaeger_one_switch FOLDER
#
# A new, empty server gets the batches; what the old one holds is exported to a folder of its own in FOLDER; then the new
# one gets the queries too, and the old one ends. No batch is lost of a sender that sends each again until it has a 202.
# It needs deploy/nginx.conf, the unit deploy/jaeger_one.service without RuntimeMaxSec=, --traces and files beside it
# (systemctl edit), senders that send to nginx alone, ports 14268 and 14269, memory for two stores, curl and Python 3, and
# no connection to another site of this nginx that lasts for more than ten minutes. It ends with 0 if all was done; else with 1,
# and a line says what was, and which server has what.
set -eu
PATH=/usr/sbin:/usr/bin:/sbin:/bin

conf=/etc/nginx/conf.d/jaeger_one.conf
units=/etc/systemd/system
pid=/run/nginx.pid
lock=/run/jaeger_one_switch.lock
patience=600  # seconds for nginx's old workers to end, which serve what began before

fail() { echo "jaeger_one_switch: $*" >&2; exit 1; }

is_readable() { [ -f "$1" ] && [ -r "$1" ]; }

port_of() { sed -n "/^upstream jaeger_one_$1 /,/^}/s/^ *server 127\.0\.0\.1:\([0-9]*\);.*/\1/p" $conf; }

property() { systemctl show -p "$1" --value $2; }

# Has nginx send batches (send) or queries (read) to another port, and waits until all workers that it had are gone: only
# then none of them sends to the old port. 1: nginx refuses the change, and goes on as before. 2: an old worker is there.
move() {
    workers=$(echo $(ps -o pid= --ppid "$(cat $pid)"))
    [ -n "$workers" ] || return 1
    cp $conf $conf.before && sed -i "/^upstream jaeger_one_$1 /,/^}/s/:$2;/:$3;/" $conf || return 1
    if ! nginx -t -q || ! nginx -s reload; then
        mv $conf.before $conf
        return 1
    fi
    rm -f $conf.before
    for _ in $(seq $patience); do
        ps -p "$workers" > /dev/null || return 0
        sleep 1
    done
    return 2
}

serves() {
    systemctl is-active -q $new_unit && curl -fs --max-time 2 -o /dev/null http://127.0.0.1:$new/api/services
}

# Ends the new server, which has nothing yet.
undo() {
    systemctl disable -q $new_unit || :
    systemctl stop $new_unit || :
    fail "$*. $old_unit serves as before"
}

[ $# = 1 ] && [ -d "$1" ] || fail "give the folder for exports"
exports=$(realpath "$1") || fail "the folder for exports can't be read: $1"
# Tried before exec, whose redirection would end the shell with status 2 if it failed.
true >> $lock || fail "$lock can't be written: run it as root"
exec 9> $lock
flock -n 9 || fail "another one runs"

is_readable $conf || fail "nginx's file $conf can't be read"
is_readable $pid || fail "nginx doesn't run: its file $pid can't be read"

old=$(port_of send)
[ "$old" = "$(port_of read)" ] || fail "nginx sends batches and queries to different ports: end the last switch by hand"
case $old in
    14268) new=14269 old_unit=jaeger_one new_unit=jaeger_one_b ;;
    14269) new=14268 old_unit=jaeger_one_b new_unit=jaeger_one ;;
    *) fail "nginx sends to port '$old', which is neither 14268 nor 14269" ;;
esac
is_readable $units/$old_unit.service || fail "$units/$old_unit.service can't be read"
systemctl is-active -q $old_unit || fail "$old_unit doesn't run"
! systemctl is-active -q $new_unit || fail "$new_unit runs already, and nginx sends it nothing: stop it"
[ "$(property RuntimeMaxUSec $old_unit)" = infinity ] || fail "$old_unit has a RuntimeMaxSec=, by which it may end before its export"
[ -z "$(property DropInPaths $old_unit)$(property DropInPaths $new_unit)" ] ||
    fail "the files of 'systemctl edit' wouldn't be those of both units: write them into $old_unit.service"
! grep -q '^ExecStart=.* --traces' $units/$old_unit.service || fail "with --traces the export would lack the traces that are hidden"
others=$(ss -Htnp state established "( dport = :$old )" | grep -v '"nginx"' || :)
[ -z "$others" ] || fail "others than nginx are connected to port $old: $others"
process=$(property MainPID $old_unit)

sed "s/--port $old/--port $new/" $units/$old_unit.service > $units/$new_unit.new && mv $units/$new_unit.new $units/$new_unit.service ||
    fail "$units/$new_unit.service can't be written"
systemctl daemon-reload && systemctl enable -q $new_unit && systemctl start $new_unit || undo "$new_unit doesn't start"
for _ in $(seq 60); do
    serves && break
    sleep 1
done
serves || undo "$new_unit doesn't answer: see journalctl -u $new_unit"

move send $old $new || case $? in
    1) undo "nginx doesn't take the change" ;;
    *) fail "an old worker of nginx is still there, see its error.log: $new_unit may take batches, $old_unit has the older ones" ;;
esac

folder=$exports/$(date +%Y%m%dT%H%M%S)
mkdir -m 700 "$folder" && cd "$folder" || fail "$folder can't be made: $new_unit takes batches, $old_unit has the older ones"
base=http://127.0.0.1:$old
curl -fsS --max-time 120 $base/api/services | python3 -c '
import json, sys, urllib.parse
for number, name in enumerate(filter(None, json.load(sys.stdin.buffer)["data"])):
    service = urllib.parse.quote(name, safe="")
    print(f"url = \"{sys.argv[1]}/api/traces?limit=0&service={service}\"\noutput = \"traces-{number}-{service[:200]}.json\"")' $base > urls.txt ||
    fail "the export failed: $new_unit takes batches, $old_unit has the older ones"
if [ -s urls.txt ]; then
    curl -fsS --fail-early --compressed --speed-limit 1 --speed-time 300 -K urls.txt ||
        fail "the export failed: $new_unit takes batches, $old_unit has the older ones"
fi

move read $old $new || case $? in
    1) fail "nginx doesn't take the change: $new_unit takes batches, queries go to $old_unit, $folder has the export" ;;
    *) fail "an old worker of nginx is still there, see its error.log: stop and disable $old_unit once it has ended; $folder has the export" ;;
esac
[ "$(property MainPID $old_unit)" = "$process" ] || lost=", but it was started anew meanwhile: what it held before may be lost"
systemctl disable -q $old_unit && systemctl stop $old_unit || fail "$old_unit can't be stopped; $new_unit serves, $folder has the export"
[ -z "${lost:-}" ] || fail "$new_unit serves on port $new; what $old_unit held is in $folder$lost"
echo "$new_unit serves on port $new; what $old_unit held is in $folder"
