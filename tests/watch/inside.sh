#!/usr/bin/env bash
# What tests/watch.sh does in the machine: inside PACKAGE
set -euo pipefail
dpkg --no-triggers --force-depends -i "$1" >/dev/null 2>&1
/usr/lib/maplewrench/archive 8100 >/dev/null &

holds() { echo "holds: $*"; }
fails() {
    echo "FAILS: $*"
    journalctl --no-pager -u maplewrench -u maplewrench-watch -n 30
    exit 1
}
# watched PATTERN [OPTIONS..]: whether the watch said so. (No pipe, which would fail if grep ends before it has read all.)
watched() { grep -q "$1" <<<"$(journalctl --no-pager -u maplewrench-watch "${@:2}")"; }
# comes SECONDS COMMAND..: whether the command succeeds within so many seconds, or a while later on a machine that is busy.
comes() {
    local tries=$(($1 * 5))
    for _ in $(seq "$tries"); do
        ! "${@:2}" || return 0
        sleep 0.2
    done
    return 1
}
has_other_process() { [ "$(process)" != "$before" ]; }
process() { systemctl show maplewrench.service --property=MainPID --value; }

# configure KEYS..: settings with these in the place of the shipped ones, and a start from nothing.
configure() {
    local key
    systemctl daemon-reload
    systemctl stop maplewrench-watch.timer maplewrench.service
    for key in "$@"; do
        sed -i "s/^${key%% *} = .*/$key/" /etc/maplewrench/settings.toml
    done
    systemctl start maplewrench.service
    before=$(process)
    since=$(date +%s)
    sleep 1
    systemctl start maplewrench-watch.timer
}

# restarted WHY: waits until the service has another process, for this reason, and both gates answer.
restarted() {
    comes 100 has_other_process || fails "it isn't restarted: $1"
    comes 60 watched "dead, restarted: .*$1" --since "@$since" || fails "the reason is '$1'"
    holds "$2"
}

# The timer and the limits of the package, in seconds in place of minutes. All else of the command is as the package has it.
mkdir -p /etc/systemd/system/maplewrench-watch.{service,timer}.d /etc/systemd/system/maplewrench.service.d
cat >/etc/systemd/system/maplewrench-watch.service.d/fast.conf <<END
[Unit]
StartLimitIntervalSec=0
[Service]
ExecStart=
ExecStart=$(sed -n 's/^ExecStart=//p' /lib/systemd/system/maplewrench-watch.service) --grace 5 --patience 5 --oldest 8
END
cat >/etc/systemd/system/maplewrench-watch.timer.d/fast.conf <<'END'
[Timer]
OnActiveSec=
OnUnitInactiveSec=
OnActiveSec=1s
OnUnitInactiveSec=1s
AccuracySec=100ms
END

# How old the last line may be if nothing else is said: a quarter of an hour if rounds are told of each minute, else a day.
python3 - <<'END' || fails "how old the last line may be"
from watching import oldest_of
told = [{"log": True, key: 5} for key in ("publish", "pull", "tolerance", "again")]
untold = [{"log": True}, {"log": False, "pull": 5}, {"pull": 5}, {}]
assert [oldest_of(settings) for settings in told + untold] == [900] * 4 + [86_400] * 4
END
holds "a last line may be a quarter of an hour old if rounds are told of each minute, and else a day"

configure "pause = 1"
comes 60 watched 'well: 3 of 3 gates answer, last line [0-9]* s ago' || fails "it is well"
sleep 12
[ "$(process)" = "$before" ] || fails "a service that is well is restarted"
holds "a service that is well is left alone"

kill -STOP "$before"
restarted "no gate answers" "a process that was stopped by a signal is restarted"

full=/etc/systemd/system/maplewrench.service.d/full.conf
printf '[Service]\nStandardOutput=file:/dev/full\n' >$full
configure
curl -s -o /dev/null http://127.0.0.1:8080/ || fails "a service with a full standard output lives, and its gates answer"
restarted "no line for" "a service that makes no round, since its standard output is full, is restarted"
rm $full

# A round that takes long: what the log says of it each minute is said each second by a program that plays the service.
slow=/etc/systemd/system/maplewrench.service.d/slow.conf
cat >/usr/local/bin/slow <<'END'
#!/usr/bin/python3
import signal, socket, sys, threading, time
def serve(gate):
    while True:
        with gate.accept()[0] as client:
            client.recv(1000)
            client.sendall(b"HTTP/1.1 404 Said\r\nContent-Length: 0\r\nConnection: close\r\n\r\n")
for port in (8080, 8081, 8082):
    threading.Thread(target=serve, args=(socket.create_server(("127.0.0.1", port)),), daemon=True).start()
    print(f"gate 127.0.0.1:{port}", flush=True)
moves = True
def stop(*_):
    global moves
    moves = False
signal.signal(signal.SIGUSR1, stop)
for second in range(10**9):
    if moves:
        print(f"log: round 1: {second} of 1000000 jobs, 0 failed, 0 passed over", file=sys.stderr, flush=True)
    time.sleep(1)
END
chmod 755 /usr/local/bin/slow
printf '[Service]\nExecStart=\nExecStart=/usr/local/bin/slow\n' >$slow
configure
comes 60 watched 'well: 3 of 3 gates answer' --since "@$since" || fails "and is well"
sleep 15
[ "$(process)" = "$before" ] || fails "a service whose round takes long is restarted"
holds "a service whose round takes long, and which says how far it is, is left alone"
kill -USR1 "$before"
restarted "no line for" "one that stops in its round, while its gates answer, is restarted"
rm $slow

configure "connections = 12"
for _ in $(seq 14); do
    curl -s -o /dev/null --max-time 2 http://127.0.0.1:8081/ || true
done
restarted "gate 127.0.0.1:8081 refuses" "a service one of whose gates has ended is restarted"

configure "connections = 1000000"
systemctl stop maplewrench.service
comes 60 watched "isn't running" --since "@$since" || fails "that it was stopped is said"
sleep 3
[ "$(systemctl is-active maplewrench.service)" = inactive ] || fails "a service that was stopped stays so"
holds "a service that an operator stopped is left alone"

# An operator stops the service while the watch looks: behind its question whether the unit runs, and behind all its questions.
systemctl stop maplewrench-watch.timer
cat >/tmp/stopped_meanwhile.py <<'END'
import subprocess, sys
sys.path.insert(0, "/usr/lib/maplewrench")
import watching
running = watching.start_of
stop = ["systemctl", "stop", "maplewrench.service"]
def refuse(gates, patience):
    subprocess.run(stop, check=True)
    return dict.fromkeys(gates, watching.REFUSES)
def stopped_last(unit):
    started = running(unit)
    if asked.append(unit) or len(asked) == 2:
        subprocess.run(stop, check=True)
    return started
asked = []
if sys.argv.pop(1) == "between":
    watching.ask_gates = refuse
else:
    watching.ask_gates, watching.start_of = lambda gates, patience: dict.fromkeys(gates, watching.REFUSES), stopped_last
watching.main()
END
for when in between behind; do
    systemctl start maplewrench.service
    sleep 2
    python3 /tmp/stopped_meanwhile.py $when /etc/maplewrench/settings.toml --grace 0 --restart || true
    [ "$(systemctl is-active maplewrench.service)" = inactive ] || fails "a service that an operator stopped while the watch looked stays so: $when"
done
holds "a service that an operator stops while the watch looks is left alone"
echo "systemd restarted services that hung or lost a gate, and left alone what was well, however long its round took"
