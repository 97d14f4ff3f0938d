"""Whether a running service is alive: its gates answer, and it moves. What systemd can't see is a process that lives and does
nothing: one that hangs, or whose standard output failed, so that it makes no round any more.

    deploy/watch SETTINGS [--unit UNIT] [--oldest SECONDS] [--patience SECONDS] [--grace SECONDS] [--restart]

Asks each gate of the settings, and looks in the journal for the last line that the unit (`maplewrench.service`) wrote, whatever
it says: a gate, a round, or the log's word of a round that goes on, which comes each minute. So a round may take as long as it
takes. The service is dead if a gate refuses a connection, if no gate answers within the patience (30), or if the last
line, or the unit's start if none came since, is older than `oldest` and the settings' pause together. `oldest` is 900. It is
86,400 if the settings have no `log = true`, or none of `publish`, `pull`, `tolerance` and `again`: then nothing is written
before a round's end. A gate that is silent while others answer may serve a slow reader, and is only told.

Says in one line what it found. Ends with status 0 if all is well, if the unit isn't running, if it was stopped or started
meanwhile, and if it was started within the grace (60); with 1 if it is dead, which `--restart` has systemd restart unless
somebody has just stopped it; with 2 if it can't tell. deploy/maplewrench-watch.timer runs it each minute.
"""
import concurrent.futures
import pathlib
import socket
import subprocess
import sys
import time
import tomllib

from arguments import Arguments

REQUEST = b"GET / HTTP/1.1\r\nHost: watch\r\nConnection: close\r\n\r\n"
ANSWERS, REFUSES, SILENT = "answers", "refuses", "is silent"
TOLD, UNTOLD = 900, 86_400    # seconds without a line, with the log's word each minute and without


def ask_gate(gate, patience):
    """What the gate at this address does: any bytes are an answer."""
    host, _, port = gate.rpartition(":")
    try:
        with socket.create_connection((host.strip("[]"), int(port)), patience) as connection:
            connection.settimeout(patience)
            connection.sendall(REQUEST)
            return ANSWERS if connection.recv(1) else REFUSES
    except TimeoutError:
        return SILENT
    except OSError:
        return REFUSES


def ask_gates(gates, patience):
    """What each gate does, all asked at once. A gate on port 0 has one that nobody else knows, and isn't asked."""
    gates = [gate for gate in gates if not gate.endswith(":0")]
    with concurrent.futures.ThreadPoolExecutor(64) as pool:
        return dict(zip(gates, pool.map(lambda gate: ask_gate(gate, patience), gates)))


def said_by(*words):
    return subprocess.run(words, capture_output=True, text=True, check=True).stdout.strip()


def start_of(unit):
    """When the unit was started, in seconds since 1970; None if it isn't running."""
    state, _, stamp = said_by("systemctl", "show", unit, "--timestamp=unix", "--property=ActiveState,ActiveEnterTimestamp",
                              "--value").partition("\n")
    return int(stamp.strip().lstrip("@")) if state == "active" else None


def last_line_of(unit):
    """When the unit's program last wrote a line; 0 if it never did."""
    ran = subprocess.run(["journalctl", "--quiet", "--unit", unit, "--output=short-unix", "--lines=1", "--grep=^(gate|round|log:) "],
                         capture_output=True, text=True)
    first = ran.stdout.partition(" ")[0]
    return float(first) if first else 0.0    # its status is 1 if no line matches


def faults_of(gates, age, oldest):
    """Why the service counts as dead: nothing if it doesn't."""
    faults = [f"gate {gate} {REFUSES}" for gate, does in gates.items() if does == REFUSES]
    if gates and all(does == SILENT for does in gates.values()):
        faults.append("no gate answers")
    if age > oldest:
        faults.append(f"no line for {age:.0f} s")
    return faults


def oldest_of(settings):
    """How old the last line may be, by whether a round that goes on is told of each minute."""
    is_told = settings.get("log") is True and any(key in settings for key in ("publish", "pull", "tolerance", "again"))
    return TOLD if is_told else UNTOLD


def look(given):
    settings = tomllib.loads(given.settings.read_text(encoding="utf-8"))
    started = start_of(given.unit)
    if started is None:
        return 0, f"{given.unit} isn't running"
    if time.time() - started < given.grace:
        return 0, f"{given.unit} has just been started"
    gates = ask_gates(settings["gates"], given.patience)
    age = time.time() - max(started, last_line_of(given.unit))
    faults = faults_of(gates, age, (given.oldest or oldest_of(settings)) + settings["pause"])
    if not faults:
        silent = "".join(f", {gate} {SILENT}" for gate, does in gates.items() if does == SILENT)
        answered = sum(does == ANSWERS for does in gates.values())
        return 0, f"well: {answered} of {len(gates)} gates answer, last line {age:.0f} s ago{silent}"
    if start_of(given.unit) != started:
        return 0, f"{given.unit} was stopped or started meanwhile"
    if given.restart:
        said_by("systemctl", "try-restart", given.unit)
    return 1, f"dead{', restarted' if given.restart else ''}: {', '.join(faults)}"


def main():
    arguments = Arguments(__doc__)
    arguments.add_argument("settings", type=pathlib.Path)
    arguments.add_argument("--unit", default="maplewrench.service")
    arguments.add_argument("--oldest", type=int)
    arguments.add_argument("--patience", type=float, default=30)
    arguments.add_argument("--grace", type=float, default=60)
    arguments.add_argument("--restart", action="store_true")
    try:
        status, said = look(arguments.parse_args())
    except (OSError, ValueError, KeyError, subprocess.CalledProcessError) as error:
        status, said = 2, f"deploy/watch: {error}"
    print(said)
    sys.exit(status)
