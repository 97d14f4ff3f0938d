#!/usr/bin/env bash
# What tests/units.sh does in the machine: inside PACKAGE
set -euo pipefail
dpkg --no-triggers --force-depends -i "$1" >/dev/null 2>&1
etc=/etc/maplewrench
drop_ins=/etc/systemd/system/maplewrench.service.d
mkdir -p $drop_ins

holds() { echo "holds: $*"; }
fails() {
    echo "FAILS: $*"
    journalctl --no-pager -u maplewrench -u maplewrench-forward -u nginx -n 40
    exit 1
}
value() { systemctl show "$1" --property="$2" --value; }
# What the program wrote since its last start.
said() { journalctl --no-pager --output=cat "_SYSTEMD_INVOCATION_ID=$(value maplewrench InvocationID)"; }

# waits WHAT SECONDS COMMAND..: until the command succeeds.
waits() {
    local what=$1 tries=$(($2 * 5))
    shift 2
    for _ in $(seq "$tries"); do
        ! "$@" >/dev/null 2>&1 || return 0
        sleep 0.2
    done
    fails "$what"
}

# has PATTERN TEXT (no pipe, which would fail where grep ends before it has read all)
has() { grep -q "$1" <<<"$2"; }
# The journal has a line a while after it was written: logged PATTERN OPTIONS.., and tells PATTERN of what the program wrote.
logged() { has "$1" "$(journalctl --no-pager --output=cat "${@:2}")"; }
tells() { has "$1" "$(said)"; }

# Bad settings.
cp $etc/settings.toml /root/settings.toml
printf '[Service]\nRestartSec=200ms\n' >$drop_ins/fast.conf
sed -i 's/^pause = .*/pause = "often"/' $etc/settings.toml
systemctl daemon-reload
systemctl start maplewrench.service 2>/dev/null || true
waits "it fails" 60 systemctl is-failed maplewrench.service
sleep 3
[ "$(value maplewrench ActiveState)/$(value maplewrench NRestarts)/$(value maplewrench ExecMainStatus)" = failed/0/2 ] ||
    fails "bad settings end it: $(value maplewrench ActiveState), $(value maplewrench NRestarts) restarts, $(value maplewrench ExecMainStatus)"
[ "$(journalctl --no-pager --output=cat -u maplewrench | grep -c 'bad settings: pause')" = 1 ] || fails "and it says so once"
holds "bad settings end the service at once, with no further start"
cp /root/settings.toml $etc/settings.toml
systemctl reset-failed maplewrench.service

# One that ends otherwise is started again.
systemctl start maplewrench.service
waits "gates" 60 curl -s -o /dev/null http://127.0.0.1:8080/
before=$(value maplewrench MainPID)
kill -KILL "$before"
started_anew() { [ "$(value maplewrench MainPID)" != "$before" ] && curl -s -o /dev/null http://127.0.0.1:8080/; }
waits "it is started again" 60 started_anew
holds "one that was killed is started again"
systemctl stop maplewrench.service

# Memory beyond LimitDATA, with less of it than is shipped.
data=$(value maplewrench LimitDATA)
high=$(value maplewrench MemoryHigh)
max=$(value maplewrench MemoryMax)
[ "$data" -lt "$high" ] && [ "$high" -lt "$max" ] || fails "what is refused comes before what is killed: $data $high $max"
holds "memory is refused beyond $data bytes, and the program killed beyond $max"
/usr/lib/maplewrench/archive 8100 --copies 50000 >/dev/null &
archive=$!
waits "an archive" 60 curl -s -o /dev/null http://127.0.0.1:8100/
printf '[Service]\nLimitDATA=110M\n' >$drop_ins/limit.conf
systemctl daemon-reload
sed -i -e "s|^originals = .*|originals = [$(printf '"http://%s.example/", ' {a..x} | sed 's/, $//')]|" -e 's/^workers = .*/workers = 2/' -e '/^walks = /d' \
    -e 's/^patience = .*/patience = 600/' $etc/settings.toml
systemctl start maplewrench.service
before=$(value maplewrench MainPID)
round() { has '^round 1 ' "$(said)"; }
waits "a round" 240 round
round=$(said | sed -n '/^round 1 /p')
[[ $round =~ ^round\ 1\ jobs\ 24\ harvests\ ([0-9]+)\ pulls\ 0\ (published|kept)$ ]] || fails "a round of 24 jobs: $round"
waits "memory is refused" 60 tells 'log: round 1: .*no memory'
[ "$(value maplewrench MainPID)/$(value maplewrench NRestarts)" = "$before/0" ] || fails "and the program goes on"
# Which of the originals came before depends on their order, which is another at each start.
shown=0
for name in {a..x}; do
    [ "$(curl -s -o /dev/null -w '%{http_code}' "http://127.0.0.1:8080/timegate/http://$name.example/")" != 302 ] || shown=$((shown + 1))
done
[ "$shown" -gt 0 ] && { [ "${BASH_REMATCH[2]}" = kept ] || [ "$shown" = "${BASH_REMATCH[1]}" ]; } ||
    fails "what came before is shown: $shown originals; $round"
holds "beyond LimitDATA memory is refused, and the program goes on: $round; $(said | sed -n '/no memory/p' | tail -n 1)"
systemctl stop maplewrench.service
rm $drop_ins/limit.conf
systemctl daemon-reload

# What is known is kept in the unit's own folder.
kept=/var/lib/maplewrench/maplewrench.snapshot
rm -f $kept
sed 's/^snapshot_every = .*/snapshot_every = 1/' /root/settings.toml >$etc/settings.toml
systemctl start maplewrench.service
waits "what is known is kept" 60 grep -q "^entry .* http://a\.example/$" $kept
rights=$(stat -c %a $kept /var/lib/maplewrench | tr '\n' ' ')
[ "$rights" = "600 700 " ] || fails "nobody else may read it: $rights"
kill $archive
before=$(value maplewrench MainPID)
kill -KILL "$before"
waits "it is started again" 60 started_anew
waits "it takes it in" 60 tells '^log: snapshot: taken in$'
shown=$(curl -s -o /dev/null -w '%{http_code}' http://127.0.0.1:8080/timegate/http://a.example/)
[ "$shown" = 302 ] || fails "and shows it: $shown"
holds "what is known is kept where nobody else may read it, and shown again after a kill, without the archive"
systemctl stop maplewrench.service
rm -f $kept
cp /root/settings.toml $etc/settings.toml

# A second replica on this machine, by its own settings, with a watch of its own, and the first one as its peer.
/usr/lib/maplewrench/archive 8100 >/dev/null &
archive=$!
waits "an archive" 60 curl -s -o /dev/null http://127.0.0.1:8100/
sed -e '/^gates/{s/:8080/:8083/;s/:8081/:8084/;s/:8082/:8085/}' -e 's|^peers = .*|peers = ["http://127.0.0.1:8082"]|' \
    -e 's/^originals = .*/originals = []/' -e 's/^snapshot_every = .*/snapshot_every = 1/' /root/settings.toml >$etc/two.toml
systemctl start maplewrench.service maplewrench@two.service
shows() { [ "$(curl -s -o /dev/null -w '%{http_code}' "http://127.0.0.1:$1/timegate/http://a.example/")" = 302 ]; }
waits "the first shows what it harvested" 60 shows 8080
waits "and the second what it has of the first" 60 shows 8083
waits "each keeps what it knows in a folder of its own" 60 test -s /var/lib/maplewrench-two/maplewrench.snapshot
[ "$(stat -c %a /var/lib/maplewrench-two)/$(systemctl show maplewrench@two --property=User --value)" = 700/maplewrench ] || fails "which nobody else may read"
systemctl start maplewrench-watch@two.service || fails "its watch leaves it alone"
waits "and looks at it" 60 logged 'maplewrench@two.service has just been started' -u maplewrench-watch@two
systemctl stop maplewrench.service
shows 8083 || fails "the second goes on while the first is stopped"
systemctl stop maplewrench@two.service
kill $archive
[[ " $(systemctl show maplewrench@two --property=After --value) " = *" maplewrench-forward.service "* ]] || fails "it is started once the forward listens"
holds "a second replica runs beside the first by a unit of its name, with a folder and a watch of its own"
rm -f $kept

# The forward's nginx and the readers' one.
openssl req -x509 -newkey rsa:2048 -nodes -days 2 -subj /CN=localhost -addext subjectAltName=DNS:localhost \
    -keyout $etc/key.pem -out $etc/certificate.pem 2>/dev/null
/usr/lib/maplewrench/archive 8443 --tls $etc/certificate.pem $etc/key.pem --name localhost:8443 >/dev/null &
waits "an archive" 60 curl -sk -o /dev/null https://localhost:8443/
cat >$etc/archives.toml <<'LIST'
[[archives]]
name = "good.test"
timemap = "https://localhost:8443/timemap/link/"
checked = true
[[archives]]
name = "nobody.test"
timemap = "https://nobody.invalid/timemap/link/"
checked = true
LIST
cp /usr/share/doc/maplewrench/examples/nginx.conf /etc/nginx/nginx.conf
/usr/lib/maplewrench/forward $etc/archives.toml $etc/forward --settings $etc/settings.toml --authorities $etc/certificate.pem >/dev/null 2>&1
systemctl daemon-reload
status() { curl -sk -o /dev/null -w '%{http_code}' --max-time 20 "$1"; }
is() { [ "$(status "$1")" = "$2" ]; }
systemctl start maplewrench-forward.service || fails "the forward starts with a name that leads nowhere"
# Planted: `Type=simple`, by which a start has ended before nginx listens, and the service's first round finds nobody there.
listens() { is http://127.0.0.1:8100/good.test/timemap/link/http://a.example/ 200; }
for _ in 1 2 3 4 5; do
    systemctl reset-failed maplewrench-forward.service 2>/dev/null || true
    systemctl restart maplewrench-forward.service
    (exec 3<>/dev/tcp/127.0.0.1/8100) 2>/dev/null || fails "a start of the forward has ended before nginx listens"
    listens || fails "and it leads on at once"
done
holds "once a start of the forward has ended it listens, five times of five"
waits "the forward leads on" 60 is http://127.0.0.1:8100/good.test/timemap/link/http://a.example/ 200
waits "but for that name" 60 is http://127.0.0.1:8100/nobody.test/timemap/link/http://a.example/ 502
holds "an archive whose name leads nowhere keeps the forward from no other"
[ "$(stat -c %U "/proc/$(value maplewrench-forward MainPID)")" != root ] || fails "it isn't root's"
waits "the journal has its requests" 60 logged 'good.test 200 .*archive: 200 after' -t maplewrench_forward
holds "it isn't root's, and the journal has its requests with the archive's status"
systemctl restart nginx || fails "readers' nginx starts beside it"
waits "readers' nginx answers" 60 is https://127.0.0.1/ 200
cp /root/settings.toml $etc/forward/nginx.conf    # nothing that nginx can read
systemctl stop maplewrench-forward.service
! systemctl start maplewrench-forward.service 2>/dev/null || sleep 2
systemctl restart nginx || fails "readers' nginx starts with a forward that doesn't"
waits "readers' nginx answers" 60 is https://127.0.0.1/ 200
! is http://127.0.0.1:8100/good.test/timemap/link/http://a.example/ 200 || fails "the forward is down"
holds "readers' nginx starts and answers, whatever the forward's state"
systemctl stop nginx
/usr/lib/maplewrench/forward $etc/archives.toml $etc/forward --settings $etc/settings.toml --authorities $etc/certificate.pem >/dev/null 2>&1
systemctl reset-failed maplewrench-forward.service 2>/dev/null || true
systemctl restart maplewrench-forward.service || fails "the forward starts without readers' nginx"
waits "it leads on" 60 is http://127.0.0.1:8100/good.test/timemap/link/http://a.example/ 200
first=$(value maplewrench-forward MainPID)
sed -i '/nobody.test/,$d' $etc/archives.toml
sed -i '$d' $etc/archives.toml
/usr/lib/maplewrench/forward $etc/archives.toml $etc/forward --settings $etc/settings.toml --authorities $etc/certificate.pem >/dev/null
systemctl reload maplewrench-forward.service
waits "what was written anew is taken in" 60 is http://127.0.0.1:8100/nobody.test/timemap/link/http://a.example/ 502
[ "$(value maplewrench-forward MainPID)" = "$first" ] && is http://127.0.0.1:8100/good.test/timemap/link/http://a.example/ 200 || fails "reloaded"
holds "the forward starts without readers' nginx, and can be reloaded"
# Planted: a reload without `nginx -t`, which says that it succeeded and changes nothing, and a `-` before it.
cp $etc/forward/nginx.conf /root/forward.conf
sed -i 's/limit_conn archives/limit_konn archives/' $etc/forward/nginx.conf
! systemctl reload maplewrench-forward.service 2>/dev/null || fails "a reload that nginx refuses fails"
[ "$(value maplewrench-forward MainPID)/$(value maplewrench-forward ActiveState)" = "$first/active" ] && listens ||
    fails "what ran before goes on: $(value maplewrench-forward ActiveState)"
waits "and the journal says why" 60 logged 'unknown directive "limit_konn"' -u maplewrench-forward
cp /root/forward.conf $etc/forward/nginx.conf
systemctl reload maplewrench-forward.service || fails "and once it is mended a reload succeeds"
listens || fails "and it leads on"
holds "a reload that nginx refuses fails, and what ran before goes on"
echo "bad settings ended the service once, memory was refused and nothing killed, and the two nginx kept out of each other's way"
