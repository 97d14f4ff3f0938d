"""Cuts a large collection into shards: the settings of each program, and an nginx that leads each request to its shard.

    deploy/shards ORIGINALS SHARDS FOLDER --settings FILE [--base URL] [--replicas R] [--gates G] [--port P] [--entry E]
                  [--hosts IP[,IP..]] [--program PROGRAM] [--from OLD] [--image IMAGE]

ORIGINALS has an address a line; blank lines and lines that begin with `#` are left out. Each of the SHARDS (1 to 100) is served
by R replicas (2), which pull from each other, and each replica by G gates for readers (2) and one for peers, so that no pull waits
behind a slow reader. FILE has the settings that all have in common; its `gates`, `originals` and `peers` are written anew for
each program, with `log = true` and `ready = true` unless FILE has those keys. Where FILE has a `snapshot`, each program has one of its
own beside it (shard-K-replica-R.NAME). Where FILE has an `originals_file`, the originals of a shard stand in a file of their own
beside it (shard-K.NAME) and not in settings: this writes FOLDER/originals/shard-K.NAME, which you copy to the hosts of the shard.
Replica r of shard k runs on host number k R + r of IP.. (127.0.0.1), round again after the last, with its gates on ports from P
(8300) on, the one for peers last.

FILE may not have `alike`, and IP.. may not be of IPv6 where replicas pull from each other.

Writes FOLDER/shard-K-replica-R.toml, FOLDER/shards.conf for nginx's `http` block, and FOLDER/programs, a line for each program:
its host and its settings. With `--image` it also writes FOLDER/HOST.compose.yaml for each host, by which `docker compose` or
`podman compose` runs the programs of that host as containers of this image. The entry listens on 127.0.0.1:E (8200), the other
servers of shards.conf on the ports behind it.
Says for each shard how many originals it has; with `--from OLD` how many move, if there were OLD shards before.
An original that isn't plain (see PLAIN) is read by PROGRAM (`aggregator`), so that it is filed as it will be asked for.
"""
import collections
import pathlib
import re
import shutil
import subprocess
import sys
import tomllib

from arguments import Arguments
from settings_text import settings_text

TOP = pathlib.Path(__file__).resolve().parent.parent
SLOTS = 1000               # nginx splits by steps of 0.1 %
MOST_ORIGINALS = 100_000   # of one program's settings
MOST_BYTES = 1_048_576     # of their text
MOST_LISTED = 268_435_456  # bytes of a file of originals
LABEL = "[a-z0-9](?:[a-z0-9-]*[a-z0-9])?"

# Spellings that the aggregator writes as they stand: a host of small letters whose last label begins with a letter (else it may be
# an IPv4 address), no port, no user, a path without dot segments, and no byte that is written as `%` and two digits. PCRE
# and Python read this alike. What it leaves out is led to its shard by asking all.
PLAIN = (rf"https?://(?!\S*xn--)(?:{LABEL}\.)*[a-z](?:[a-z0-9-]*[a-z0-9])?"
         r"(?=/)(?!\S*/(?:\.|%2[eE]){1,2}(?:[/?]|$))/[A-Za-z0-9._~!$&()*+,;=:@%/-]*(?:\?[A-Za-z0-9._~!$&()*+,;=:@%/?-]*)?")


class Refused(Exception):
    """What is wrong with what was given, for who gave it."""


def murmur(data):
    """nginx's hash of a text (MurmurHash2 of 32 bits, from 0)."""
    factor, mask = 0x5BD1E995, 0xFFFFFFFF
    result = len(data)
    whole = len(data) & ~3
    for at in range(0, whole, 4):
        word = int.from_bytes(data[at:at + 4], "little") * factor & mask
        word = (word ^ word >> 24) * factor & mask
        result = (result * factor & mask) ^ word
    rest = data[whole:]
    if rest:
        result = (result ^ int.from_bytes(rest, "little")) * factor & mask
    result = (result ^ result >> 13) * factor & mask
    return result ^ result >> 15


def slot_of(original):
    """The slot that nginx's split_clients gives an original among SLOTS equal ones, of which the last takes the rest."""
    share = 10_000 // SLOTS * 0xFFFFFFFF // 10_000
    return min(murmur(original.encode()) // share, SLOTS - 1)


def owners(shards):
    """The shard of each slot, from 1 on. Each shard that is added takes an equal part, always from those that have the most,
    and no slot moves between others."""
    owner = [1] * SLOTS
    for new in range(2, shards + 1):
        held = collections.defaultdict(list)
        for slot, shard in enumerate(owner):
            held[shard].append(slot)
        for _ in range(SLOTS // new):
            owner[max(held.values(), key=len).pop()] = new
    return owner


def read_lines(path):
    lines = enumerate(path.read_text(encoding="utf-8").split("\n"), 1)
    return [(number, line.strip()) for number, line in lines if line.strip() and not line.startswith("#")]


def written_by(program, spelled):
    """How the program writes these originals: it takes an empty page of each, and tells what it knows then."""
    script = "replicas 1 http://a.example\n" + "".join(f"take 1 a 1 http://a.example/ 0 {text}\n\n" for _, text in spelled)
    script += "ask 1 GET 0 /state\n"
    try:
        ran = subprocess.run([program, "replay"], input=script, capture_output=True, encoding="utf-8")
    except OSError as error:
        raise Refused(f"{program}: {error.strerror}; it is needed for line {spelled[0][0]}: {spelled[0][1]}") from error
    if ran.returncode:
        raise Refused(f"{program} replay: {ran.stderr.strip()}")
    answers = ran.stdout.split("\n")
    for (number, text), answer in zip(spelled, answers):
        if not answer.startswith("taken"):
            raise Refused(f"line {number} is no original ({answer}): {text}")
    return {line.split(" ", 4)[4] for line in answers if line.startswith("entry ")}


def read_originals(path, program):
    """The originals of a file, as the aggregator writes them, each once."""
    lines = read_lines(path)
    plain = re.compile(PLAIN)
    odd = [(number, text) for number, text in lines if len(text) > 4096 or not plain.fullmatch(text)]
    written = {text for _, text in lines} - {text for _, text in odd}
    return sorted(written | (written_by(program, odd) if odd else set()))


def place_replicas(given):
    """The host and the gates of each replica of each shard: those for readers, and then the one for peers."""
    next_port = collections.Counter()
    places = {}
    for shard in range(1, given.shards + 1):
        for replica in range(1, given.replicas + 1):
            host = given.hosts[((shard - 1) * given.replicas + replica - 1) % len(given.hosts)]
            first = given.port + next_port[host]
            next_port[host] += given.gates + 1
            bracketed = f"[{host}]" if ":" in host else host
            places[shard, replica] = host, [f"{bracketed}:{port}" for port in range(first, first + given.gates + 1)]
    return places


def snapshot_of(common, name):
    """Where a program keeps what it knows, if the settings in common have a snapshot."""
    if "snapshot" not in common:
        return {}
    kept = pathlib.Path(common["snapshot"])
    return {"snapshot": str(kept.with_name(f"{name}.{kept.name}"))}


def file_of(common, shard):
    """The file with the originals of a shard, where its programs find it."""
    listed = pathlib.Path(common["originals_file"])
    return listed.with_name(f"shard-{shard}.{listed.name}")


def programs_of(given, common, places, originals_of):
    """The name and the text of each program's settings."""
    has_file = "originals_file" in common
    for (shard, replica), (_, gates) in places.items():
        peers = [f"http://{places[shard, other][1][-1]}" for other in range(1, given.replicas + 1) if other != replica]
        name = f"shard-{shard}-replica-{replica}"
        originals = {"originals": [], "originals_file": str(file_of(common, shard))} if has_file else {"originals": originals_of[shard]}
        text = settings_text(common | {"gates": gates, "peers": peers} | originals | snapshot_of(common, name))
        many = not has_file and len(originals_of[shard]) > MOST_ORIGINALS
        if many or len(text.encode()) > MOST_BYTES:
            what = f"{len(originals_of[shard])} originals" if many else f"settings of {len(text.encode())} bytes"
            raise Refused(f"shard {shard} would have {what}, where a program takes {MOST_ORIGINALS} in {MOST_BYTES} bytes: "
                          "take more shards, or set originals_file")
        yield f"{name}.toml", text


def files_of(common, originals_of):
    """The name and the text of each shard's file of originals, if the settings in common have one."""
    if "originals_file" not in common:
        return
    for shard, originals in originals_of.items():
        text = "".join(f"{original}\n" for original in originals)
        if len(text.encode()) > MOST_LISTED:
            raise Refused(f"shard {shard} would have a file of {len(text.encode())} bytes, where a program takes {MOST_LISTED}: take more shards")
        yield file_of(common, shard).name, text


COMPOSE = """\
# Written by deploy/shards: the programs of the host {host}. In a folder with their settings{and_originals}:
#
#     podman compose -f {host}.compose.yaml up -d
services:
{services}
volumes:
{volumes}
"""

SERVICE = """\
  {name}:
    image: {image}
    network_mode: host
    restart: always
    read_only: true
    cap_drop: [ALL]
    security_opt: ["no-new-privileges:true"]
    mem_limit: 4g
    stop_signal: SIGKILL
    volumes:
      - ./{name}.toml:/etc/maplewrench/settings.toml:ro
{originals}      - {name}:/var/lib/maplewrench"""


def composes_of(given, common, places):
    """The name and the text of each host's compose file, if an image is named. A folder of originals is mounted as a whole, so that
    a file that is put in the place of another is seen."""
    names = collections.defaultdict(list)
    for (shard, replica), (host, _) in places.items():
        names[host].append(f"shard-{shard}-replica-{replica}")
    originals = ""
    if "originals_file" in common:
        originals = f"      - ./originals:{pathlib.Path('/var/lib/maplewrench', common['originals_file']).parent}:ro\n"
    for host, its in names.items() if given.image else ():
        services = "\n\n".join(SERVICE.format(name=name, image=given.image, originals=originals) for name in its)
        yield f"{host}.compose.yaml", COMPOSE.format(host=host, services=services, volumes="\n".join(f"  {name}:" for name in its),
                                                     and_originals=" and the folder originals/" if originals else "")


NGINX = """\
# Written by deploy/shards for {shards} shards; to be included in nginx's `http` block. Entry: http://127.0.0.1:{entry}
#
# A plain spelling of an original stands for itself, so its hash names the shard. Any other is asked of each shard in turn, until
# one knows it. A gate of a replica that knows nothing yet says 503 (`ready` of the settings), so another is asked.
map $request_uri $shard_original {{
    default "";
    "~^/timegate/(?<shard_a>.*)$" $shard_a;
    "~^/timemap/(link|json|cdxj)/page/\\d+/(?<shard_b>.*)$" $shard_b;
    "~^/timemap/(link|json|cdxj)/(?<shard_c>.*)$" $shard_c;
}}
split_clients $shard_original $shard_of_plain {{
{slots}
}}
map $shard_original $shard {{
    default shards_asked;
    "~^{plain}$" $shard_of_plain;
}}
{upstreams}
upstream shards_asked {{ server 127.0.0.1:{asked}; }}
upstream shards_all {{
{shard_servers}
}}
limit_req_zone $server_port zone=shards_asked:1m rate=50r/s;

# A shard that can't be asked, or knows nothing yet, may be asked later. An empty value adds no field.
map $status $shards_retry_after {{ default ""; 503 5; }}

server {{
    listen 127.0.0.1:{entry};
{common}
    # The readers' nginx in front bounds what one reader may ask for; here all come from it.
    proxy_hide_header Retry-After;
    add_header Retry-After $shards_retry_after always;
    error_page 502 504 =503 @later;
    location ~ ^/(timegate|timemap/(link|json|cdxj))/ {{ proxy_pass http://$shard$request_uri; }}
    location @later {{
        default_type text/plain;
        return 503 "not now: a shard is down\\n";
    }}
    location / {{ return 404 "no such route\\n"; }}
}}
server {{
    listen 127.0.0.1:{asked};
{common}
    location / {{
        limit_req zone=shards_asked burst=100 nodelay;
        limit_req_status 429;
        proxy_next_upstream error timeout http_404 http_500 http_502 http_503 http_504;
        proxy_intercept_errors on;
        error_page 404 500 502 503 504 = @unknown;
        proxy_pass http://shards_all$request_uri;
    }}
    # No shard knows it: a shard that couldn't be asked may.
    location @unknown {{
        default_type text/plain;
        if ($upstream_status ~ "50") {{ return 503 "not now: a shard is down\\n"; }}
        return 404 "no memento\\n";
    }}
}}
{shard_blocks}"""

COMMON = """\
    # What readers ask for can have secrets in it, and each line about a request has it.
    access_log off;
    error_log stderr emerg;
    proxy_http_version 1.1;
    proxy_set_header Connection close;
    proxy_set_header Host $host;
    proxy_pass_request_body off;
    proxy_set_header Content-Length "";
    proxy_connect_timeout 2s;
    proxy_read_timeout 10s;
    large_client_header_buffers 4 8k;
    # The longest head of a reply is a redirect's, of less than 17,140 bytes (see deploy/nginx.conf).
    proxy_buffer_size 32k;
    proxy_buffers 8 32k;
    proxy_busy_buffers_size 64k;
    proxy_next_upstream error timeout http_503;"""


def nginx_text(given, places):
    shards = range(1, given.shards + 1)
    names = [f"shard_{shard}" for shard in owners(given.shards)]
    slots = [f"    {100 / SLOTS:.1f}% {name};" for name in names[:-1]] + [f"    * {names[-1]};"]
    upstreams = []
    for shard in shards:
        gates = [gate for replica in range(1, given.replicas + 1) for gate in places[shard, replica][1][:-1]]
        upstreams += [f"upstream shard_{shard} {{", "    least_conn;", *(f"    server {gate};" for gate in gates), "}"]
    first = given.entry + 1
    blocks = [f"server {{\n    listen 127.0.0.1:{first + shard};\n{COMMON}\n"
              f"    location / {{ proxy_pass http://shard_{shard}$request_uri; }}\n}}\n" for shard in shards]
    return NGINX.format(
        shards=given.shards, entry=given.entry, asked=first, plain=PLAIN, common=COMMON, slots="\n".join(slots),
        upstreams="\n".join(upstreams), shard_blocks="".join(blocks),
        shard_servers="\n".join(f"    server 127.0.0.1:{first + shard} max_fails=0;" for shard in shards))


def write(given):
    common = {"log": True, "ready": True} | tomllib.loads(given.settings.read_text(encoding="utf-8"))
    if common.get("alike"):
        raise Refused("`alike` is of no use in shards: another spelling's hash names another shard, where nobody wished for it. Leave it out")
    if given.replicas > 1 and any(":" in host for host in given.hosts):
        raise Refused("--hosts: a replica is pulled from by IPv4 alone, and never by an address in brackets")
    common |= {"archives": common.get("archives", [])} | ({"base": given.base} if given.base else {})
    originals = read_originals(given.originals, given.program)
    owner, places = owners(given.shards), place_replicas(given)
    slots = {original: slot_of(original) for original in originals}
    originals_of = {shard: [] for shard in range(1, given.shards + 1)}
    for original, slot in slots.items():
        originals_of[owner[slot]].append(original)
    programs = dict(programs_of(given, common, places, originals_of))
    written = programs | {f"originals/{name}": text for name, text in files_of(common, originals_of)}
    written |= dict(composes_of(given, common, places)) | {"shards.conf": nginx_text(given, places)}
    written["programs"] = "".join(f"{host} {name}\n" for (host, _), name in zip(places.values(), programs))
    for name, text in written.items():
        (given.folder / name).parent.mkdir(parents=True, exist_ok=True)
        (given.folder / name).write_text(text, encoding="utf-8")
    for shard, its in originals_of.items():
        print(f"shard {shard}: {len(its)} originals")
    if given.old:
        before = owners(given.old)
        moved = sum(before[slot] != owner[slot] for slot in slots.values())
        print(f"{moved} of {len(originals)} originals move, if there were {given.old} shards")


def main():
    arguments = Arguments(__doc__)
    arguments.add_argument("originals", type=pathlib.Path)
    arguments.add_argument("shards", type=int, choices=range(1, 101))
    arguments.add_argument("folder", type=pathlib.Path)
    arguments.add_argument("--settings", type=pathlib.Path, required=True)
    arguments.add_argument("--base")
    arguments.add_argument("--replicas", type=int, default=2, choices=range(1, 17))
    arguments.add_argument("--gates", type=int, default=2, choices=range(1, 64))
    arguments.add_argument("--port", type=int, default=8300)
    arguments.add_argument("--entry", type=int, default=8200)
    arguments.add_argument("--hosts", type=lambda text: text.split(","), default=["127.0.0.1"])
    built = TOP / "crates/aggregator/out/aggregator"
    arguments.add_argument("--program", default=str(built) if built.exists() else shutil.which("aggregator") or "aggregator")
    arguments.add_argument("--from", dest="old", type=int, choices=range(1, 101))
    arguments.add_argument("--image")
    try:
        write(arguments.parse_args())
    except (Refused, OSError, UnicodeDecodeError, tomllib.TOMLDecodeError) as error:
        print(f"deploy/shards: {error}", file=sys.stderr)
        sys.exit(2)
