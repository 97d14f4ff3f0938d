#!/usr/bin/env python3
"""What settings may hold: each key missing, each from both sides of its limits, and which key the program names then; and
what it tells beside that: which entry is no original, what a key may hold, which keys aren't looked at.

    ./run --unproved && tests/settings.py

That what is read is what is served by is shown by tests/rounds.
"""
import os
import pathlib
import re
import subprocess
import sys
import tempfile

from playing import PROGRAM, TOP

MOST_BYTES = 1_048_576    # of settings
OWN = {"walks": (1, 1_000), "tolerance": (1, 1_000_000_000), "dormant": (1, 86_400), "walk": (1, 86_400), "rate": (1, 1_000_000),
       "again": (1, 2_592_000), "again_none": (1, 2_592_000), "ahead": (1, 2_592_000), "publish": (1, 86_400), "pull": (1, 86_400),
       "parts": (1, 128)}    # numbers, with their limits
OPTIONAL = {"patience", "hosts", "log", "at_once", *OWN, "agent", "ready", "wanted", "wishes", "alike", "originals_file", "snapshot", "snapshot_every", "formats", "status", "together", "wait",
            "forget", "withdrawn_file", "most"}

TELLING = {"tolerance", "again", "publish", "pull", "originals_file"}    # by which more is told than what is specified
HOLDS = {    # what is told of a key that holds what it may not
    "base": "a URL of http or https without a path",
    "gates": "1 to 64 texts IP:PORT",
    "connections": "a number from 1 to 1000000000",
    "rounds": "a number from 1 to 1000000000",
    "pause": "a number from 0 to 86400",
    "workers": "a number from 1 to 64",
    "originals": "0 to 100000 addresses of http or https",
    "peers": "0 to 15 bases of http, by a name or an IPv4 address",
    "archives": "0 to 1000 tables, each with a name of its own and a timemap of http",
    "patience": "a number from 1 to 86400",
    "hosts": "0 to 1000 hosts",
    "log": "true or false",
    "at_once": "a number from 1 to 1000, above 64 only where walks is set",
    **{key: f"a number from {least} to {most}" for key, (least, most) in OWN.items()},
    "agent": "1 to 256 visible bytes of ASCII and blanks",
    "ready": "true or false",
    "wanted": "a number from 0 to 1000000",
    "wishes": "a number from 1 to 60000",
    "alike": "true or false",
    "originals_file": "a path of 1 to 4096 bytes",
    "snapshot": "a path of 1 to 4096 bytes",
    "snapshot_every": "a number from 1 to 86400",
    "formats": "0 to 2 of json and cdxj",
    "status": "a text IP:PORT",
    "together": "a number from 1 to 256",
    "wait": "a number from 1 to 60, where wanted is set and together is 2 or more",
    "forget": "a number from 1 to 86400",
    "withdrawn_file": "a path of 1 to 4096 bytes",
    "most": "a number from 1 to 1000000000",
}

SAMPLE = {
    "base": '"http://127.0.0.1:8080"',
    "gates": '["127.0.0.1:8080", "[::1]:8081"]',
    "connections": "1",
    "rounds": "1",
    "pause": "0",
    "workers": "4",
    "originals": '["http://a.example/"]',
    "peers": '["http://127.0.0.1:9080/"]',
    "other": "true",
    "patience": "60",
    "hosts": '["web.archive.org", "127.0.0.1:8100"]',
    "log": "true",
    "archives": '[{ name = "arc.example", timemap = "http://127.0.0.1:8100/timemap/link/" }]',
}


def listed(count, text):
    """A list of so many texts."""
    return "[" + ", ".join(text(k) for k in range(count)) + "]"


def asked(more):
    """One archive with these keys of its own."""
    return f'[{{ name = "a", timemap = "http://a/", {more} }}]'


def archives(*pairs):
    return "[" + ", ".join(f'{{ name = "{name}", timemap = "{timemap}" }}' for name, timemap in pairs) + "]"


def gate(_):
    return '"127.0.0.1:0"'


def original(number):
    return f'"http://a/{number}"'


def peer(number):
    return f'"http://p{number}.example"'


def host(number):
    return f'"h{number}.example"'


TAKEN = {
    "base": ['"https://agg.example/"'],
    "gates": [listed(64, gate)],
    "connections": ["1000000000"],
    "rounds": ["1000000000"],
    "pause": ["86400"],
    "workers": ["1", "64"],
    "originals": ["[]", '["https://a.example/"]', listed(10_000, original)],
    "peers": ["[]", listed(15, peer), '["http://192.0.2.7:8080/"]', '["HTTP://b.example:80"]'],
    "archives": ["[]", archives(*((f"a{k}", "http://a/") for k in range(1000))), archives(("a", "http://a/" + "x" * 4087)),
                 *map(asked, ("at_once = 1", "at_once = 64", "every = 1", "every = 3600000", "at_once = 2, every = 500"))],
    "patience": ["1", "86400"],
    "hosts": ["[]", listed(1000, host), '["web.archive.org"]', '["127.0.0.1:8101"]', '["a:1", "a:65535"]', '["[::1]"]',
              '["[2001:db8::1]:8080"]', '["xn--bcher-kva.example"]', '["a.example", "a.example"]'],
    "log": ["true", "false"],
    "at_once": ["1", "64"],
    **{key: [str(least), str(most)] for key, (least, most) in OWN.items()},
    "agent": ['"m"', '"maplewrench (http://agg.example; mail@agg.example)"', f'"{"m" * 256}"'],
    "ready": ["true", "false"],
    "wanted": ["0", "1000000"],
    "wishes": ["1", "60000"],
    "alike": ["true", "false"],
    "originals_file": ['"o"', '"/etc/maplewrench/originals"', f'"{"o" * 4_096}"'],
    "snapshot": ['"k"', '"/var/lib/maplewrench/known"', f'"{"k" * 4_096}"'],
    "snapshot_every": ["1", "86400"],
    "formats": ["[]", '["json"]', '["cdxj"]', '["json", "cdxj"]', '["cdxj", "json"]'],
    "status": ['"127.0.0.1:9090"', '"[::1]:0"', '"127.0.0.1:8080"'],
    "together": ["1", "256"],
    "forget": ["1", "86400"],
    "withdrawn_file": ['"w"', '"/etc/maplewrench/withdrawn"', f'"{"w" * 4_096}"'],
    "most": ["1", "1000000000"],
}

REFUSED = {
    "base": ['"http://agg.example/x"', '"ftp://agg.example"', "1"],
    "gates": ["[]", '["localhost:80"]', '["127.0.0.1"]', "[80]", listed(65, gate)],
    "connections": ["0", "1000000001", '"1"'],
    "rounds": ["0", "1000000001"],
    "pause": ["-1", "86401"],
    "workers": ["0", "65", "4.0"],
    "originals": ['["ftp://a.example/"]', "[7]", '"http://a.example/"'],
    "peers": ['["http://p.example/state"]', "[7]", listed(16, peer), '["http://[::1]:8605"]', '["http://a.example", "HTTP://[2001:db8::1]/"]',
              '["https://p.example"]'],
    "archives": [
        archives(("arc.example", "https://arc.example/")),
        archives(("arc.example", "http://arc example/")),
        *map(asked, ("at_once = 0", "at_once = 65", 'at_once = "1"', "every = 0", "every = 3600001", 'every = "1"')),
        archives(("arc.example", "http://a/"), ("arc.example", "http://b/")),
        archives(("A", "http://a/")),
        archives(("a", "http://a/" + "x" * 4088)),
        archives(*((f"a{k}", "http://a/") for k in range(1001))),
        '[{ name = "arc.example" }]',
        '[{ timemap = "http://a/" }]',
        '["http://a/"]',
    ],
    "patience": ["0", "86401", "-1", "60.0", '"60"', "true"],
    "hosts": [
        listed(1001, host), '"a.example"', "[7]", '[["a.example"]]', '[""]', '[" "]', '["/"]', '["a.example/"]', '["a.example/x"]',
        '["a/b"]', '["a.example?x"]', '["a.example#x"]', '["user@a.example"]', '["user:word@a.example"]', '["@a.example"]',
        '["A.example"]', '["a.example:80"]', '["a.example:"]', '["a.example:65536"]', '["a.example:080"]', '["a.example:x"]', '[":8100"]',
        '["http://a.example"]', '["a b"]', '["a\\texample"]', '["a.example\\n"]', '["a%2eexample"]', '["b\u00fccher.example"]',
        '["127.1"]', '["2130706433"]', '["0x7f000001"]', '["256.1.1.1"]', '["::1"]', '["[::1"]', '["[0:0:0:0:0:0:0:1]"]',
    ],
    "log": ["1", "0", '"true"', "[true]"],
    "at_once": ["0", "65", "1000", "-1", '"1"', "1.5", "true"],
    **{key: [str(least - 1), str(most + 1), "-1", '"1"', "1.5", "true"] for key, (least, most) in OWN.items()},
    "agent": ["7", '""', '" m"', '"m "', '"m\\u00e9"', f'"{"m" * 257}"', '"m\\u0000"'],
    "ready": ["1", '"true"'],
    "wanted": ["-1", "1000001", '"1"', "1.5", "true"],
    "wishes": ["0", "60001", "-1", '"1"', "1.5", "true"],
    "alike": ["1", '"true"'],
    "originals_file": ["7", '""', "true", '["o"]', f'"{"o" * 4_097}"'],
    "snapshot": ["7", '""', "true", '["k"]', f'"{"k" * 4_097}"'],
    "snapshot_every": ["0", "86401", "-1", '"1"', "1.5", "true"],
    "formats": ['"json"', "7", '["link"]', '["JSON"]', '[""]', "[7]", '["json", "cdxj", "json"]', '[["json"]]'],
    "status": ['""', '"localhost:9090"', '"127.0.0.1"', "9090", "true", '["127.0.0.1:9090"]', '"127.0.0.1:65536"'],
    "together": ["0", "257", "-1", '"1"', "1.5", "true"],
    "forget": ["0", "86401", "-1", '"1"', "1.5", "true"],
    "withdrawn_file": ["7", '""', "true", '["w"]', f'"{"w" * 4_097}"'],
    "most": ["0", "1000000001", "-1", '"1"', "1.5", "true"],
}

HOLDING = {"wanted": "1", "together": "2"}    # what `wait` needs


def text_with(**changed):
    """The sample with these values, or without a key if it is None."""
    return "".join(f"{key} = {value}\n" for key, value in {**SAMPLE, **changed}.items() if value is not None)


def check_in(folder, text):
    """Status and standard output of `check` for these settings, which may name files of the folder."""
    (folder / "settings.toml").write_text(text)
    ran = subprocess.run([PROGRAM, "check", folder / "settings.toml"], capture_output=True, text=True, check=False, cwd=folder, timeout=60)
    return ran.returncode, ran.stdout


def check(text):
    """Status, standard output and standard error of `check` for these settings."""
    with tempfile.NamedTemporaryFile() as file:
        file.write(text if isinstance(text, bytes) else text.encode())
        file.flush()
        ran = subprocess.run([PROGRAM, "check", file.name], capture_output=True, text=True, check=False)
    return ran.returncode, ran.stdout, ran.stderr


def expect(what, text, wanted):
    told = check(text)
    if told != wanted:
        print(f"{what}: {told}, not {wanted}")
        sys.exit(1)


def fault_of(key):
    """What is said of settings of which this key is the first that holds what it may not."""
    return 2, "", f"bad settings: {key}\n"


def told_of(key, unknown=("other",)):
    """The same, if they say that more is told."""
    return 2, "", f"bad settings: {key}\n{key}: {HOLDS[key]}\n{unknown_lines(unknown)}"


def entry_of(number):
    """What is said of settings of which this entry of `originals` is the first that is none, if they say that more is told."""
    return 2, "", f"bad settings: originals\noriginals: entry {number} is no original\n{unknown_lines(['other'])}"


def unknown_lines(keys):
    return "".join(f"unknown key: {key}\n" for key in keys)


def expect_entries():
    """Which entry of `originals` is none is told by its number where a key of this service's own says that more is told."""
    bad = '["http://a.example/", "https://b.example/", "ftp://c.example/", "http://d.example/", "x"]'
    own = {"tolerance": "5", "again": "60", "publish": "1", "pull": "1", "originals_file": '"o"'}
    expect("a bad entry as it is specified", text_with(originals=bad), fault_of("originals"))
    for key, value in own.items():
        expect(f"a bad entry with {key}", text_with(originals=bad, **{key: value}), entry_of(3))
    for key, value in {"at_once": "1", "wanted": "9", "status": '"127.0.0.1:9090"'}.items():
        expect(f"a bad entry with {key}", text_with(originals=bad, **{key: value}), fault_of("originals"))
    expect("the first of all", text_with(originals="[7]", again="60"), entry_of(1))
    expect("the last of all", text_with(originals=listed(2_000, lambda k: original(k) if k < 1_999 else '""'), again="60"), entry_of(2_000))
    expect("of two faults the first", text_with(originals="[{}]", again="0"), entry_of(1))
    expect("no list has no entry", text_with(originals='"http://a.example/"', again="60"), told_of("originals"))
    expect("no key has none either", text_with(originals=None, again="60"), told_of("originals"))
    expect("nor is one of an earlier key told", text_with(originals=bad, workers="0", again="60"), told_of("workers"))
    expect("nor one of a later", text_with(peers='["x"]', again="60"), told_of("peers"))


def expect_wait():
    """`wait` is taken where there are wishes and several connections at once, and refused elsewhere."""
    for value in ("1", "60"):
        expect(f"wait = {value}", text_with(**HOLDING, wait=value), summary())
        for key, missing in (("wanted", None), ("wanted", "0"), ("together", None), ("together", "1")):
            expect(f"wait = {value} with {key} {missing}", text_with(**{**HOLDING, key: missing}, wait=value), fault_of("wait"))
    for value in ("0", "61", "-1", '"1"', "1.5", "true"):
        expect(f"wait = {value}", text_with(**HOLDING, wait=value), fault_of("wait"))
    expect("what wait may hold", text_with(again="60", wait="8"), told_of("wait"))


def expect_walks():
    """With `walks` more walks of one archive may run at once than `workers` ever allows, whichever key says how many."""
    for value in ("1", "300", "1000"):
        for at_once in ("1", "64", "65", "1000"):
            expect(f"walks = {value} with at_once = {at_once}", text_with(walks=value, at_once=at_once), summary())
            expect(f"walks = {value} with an archive's at_once = {at_once}", text_with(walks=value, archives=asked(f"at_once = {at_once}")), summary())
        for at_once in ("0", "1001"):
            expect(f"walks = {value} with at_once = {at_once}", text_with(walks=value, at_once=at_once), fault_of("at_once"))
            expect(f"walks = {value} with an archive's at_once = {at_once}", text_with(walks=value, archives=asked(f"at_once = {at_once}")),
                   fault_of("archives"))
    for value in ("0", "1001", '"1"'):
        expect(f"walks = {value} is to blame, and no archive", text_with(walks=value, archives=asked("at_once = 65")), fault_of("walks"))
        expect(f"walks = {value} is looked for behind the specified keys", text_with(walks=value, log="7"), fault_of("log"))
    expect("workers are needed with walks, too", text_with(walks="300", workers=None), fault_of("workers"))
    expect("and there are no more of them", text_with(walks="300", workers="65"), fault_of("workers"))


def expect_lines():
    """Which lines of the file of originals are none is told by their numbers."""
    good = summary()[:2]
    with tempfile.TemporaryDirectory() as name:
        folder = pathlib.Path(name)
        for what, text, said in (
            ("good lines", "http://b.example/\n\n  http://c.example/\r\n", ""),
            ("bad lines", "x\nhttp://b.example/\n\nftp://c.example/", "list: line 1 is no original\nlist: line 4 is no original\n"),
            ("many bad lines", "x\n" * 23, "".join(f"list: line {k} is no original\n" for k in range(1, 21))
             + "list: 3 more lines are no originals\n"),
            ("a byte order mark before the first line", "\ufeffhttp://b.example/\nx\n", "list: line 2 is no original\n"),
            ("before a bad line", "\ufeffx\n", "list: line 1 is no original\n"),
            ("alone", "\ufeff", ""),
            ("twice", "\ufeff\ufeffhttp://b.example/\n", "list: line 1 is no original\n"),
            ("before another line", "http://b.example/\n\ufeffhttp://c.example/\n", "list: line 2 is no original\n"),
        ):
            (folder / "list").write_text(text, encoding="utf-8")
            came = check_in(folder, text_with(originals_file='"list"'))
            if came != (good[0], good[1] + said):
                print(f"{what}: {came}")
                sys.exit(1)
        os.mkfifo(folder / "pipe")
        (folder / "linked").symlink_to("pipe")
        # What isn't a file isn't opened: nobody writes to the pipe.
        for what, path in (("no file", '"none"'), ("a folder", '"."'), ("a pipe", '"pipe"'), ("a link to one", '"linked"'),
                           ("a device", '"/dev/zero"'), ("an empty device", '"/dev/null"')):
            came = check_in(folder, text_with(originals_file=path))
            if came != (good[0], good[1] + "list: not read\n"):
                print(f"{what}: {came}")
                sys.exit(1)


def expect_unknown():
    """Which keys aren't looked at is told where a key of this service's own says that more is told, and changes no status."""
    def told(what, more, lines, count=1, **changed):
        expect(what, text_with(other=None, again="60", **changed) + more, (*summary(archives=count)[:2], lines))

    told("no unknown key", "", "")
    expect("as it is specified", text_with(publsh="5"), summary())
    expect("and by a key of which nothing is specified", text_with(publsh="5", at_once="1"), summary())
    with tempfile.NamedTemporaryFile() as empty:
        for key, value in {"tolerance": "5", "again": "60", "publish": "1", "pull": "1", "originals_file": f'"{empty.name}"'}.items():
            expect(f"an unknown key with {key}", text_with(**{key: value}), (*summary()[:2], unknown_lines(["other"])))
    told("in the order of their bytes", 'publsh = 5\nBase = 1\nworker = "x"\n[pauses]\nrounds = 1\n',
         unknown_lines(["Base", "pauses", "publsh", "worker"]))
    told("a part of a name, and more than a name", "log_ = 1\nlo = 1\n", unknown_lines(["lo", "log_"]))
    told("twenty", "".join(f"x{k:02} = 1\n" for k in range(20)), unknown_lines(f"x{k:02}" for k in range(20)))
    told("one more", "".join(f"x{k:02} = 1\n" for k in range(21)), unknown_lines(f"x{k:02}" for k in range(20)) + "unknown keys: 1 more\n")
    told("many", "".join(f"x{k} = 1\n" for k in range(10_000, 90_000)),
         unknown_lines(f"x{k}" for k in range(10_000, 10_020)) + "unknown keys: 79980 more\n")
    archive = '{ name = "arc.example", timemap = "http://a/", at_once = 1, every = 5, %s }'
    told("of archives", "", "".join(f"archives: {line}\n" for line in ("unknown key: evry", "unknown key: publish", "unknown key: evry")),
         count=2, archives="[" + archive % "evry = 1, publish = 5" + ", " + archive.replace("arc", "b") % "evry = 7" + "]")
    told("of archives behind the others", "x = 1\n", "unknown key: x\narchives: unknown key: y\n", archives="[" + archive % "y = 1" + "]")
    told("a key behind the archives is one of the last of them", '[[archives]]\nname = "a"\ntimemap = "http://a/"\npublish = 5\n',
         "archives: unknown key: publish\n", archives=None)
    told("the keys of no table", "x = 1\n[x2]\ny = 1\n", unknown_lines(["x", "x2"]))
    expect("behind a fault", text_with(again="60", pause=None, puase="60"), told_of("pause", ["other", "puase"]))
    expect("of archives behind a fault", text_with(again="60", other=None, archives="[7, { nam = 1 }, { name = 1 }]"),
           (2, "", f"bad settings: archives\narchives: {HOLDS['archives']}\narchives: unknown key: nam\n"))
    expect("of no list", text_with(again="60", other=None, archives="{ nam = 1 }"), told_of("archives", []))
    expect("none of what is no TOML", text_with(again="60") + "=", fault_of("text"))


def expect_logged():
    """`serve` begins its log with the keys that aren't looked at, if there is one, and says nothing of them otherwise."""
    nowhere = '["192.0.2.1:8080"]'    # so that it ends at once
    ended = "log: gate 1 (192.0.2.1:8080) ended: an address that can't be bound\n"
    with tempfile.TemporaryDirectory() as name:
        file = pathlib.Path(name) / "settings.toml"
        for what, changed, said in (
            ("with a log", {"log": "true", "again": "60"}, f"log: unknown key: other\nlog: archives: unknown key: evry\n{ended}"),
            ("without one", {"log": "false", "again": "60"}, ""),
            ("as it is specified", {"log": "true"}, ended),
        ):
            file.write_text(text_with(gates=nowhere, archives=asked("evry = 1"), **changed))
            ran = subprocess.run([PROGRAM, "serve", file], capture_output=True, text=True, check=False)
            came = ran.returncode, ran.stdout, ran.stderr
            if came != (3, "", said + "no gate\n"):
                print(f"serve {what}: {came}")
                sys.exit(1)


def expect_shown():
    """What may be in a key, and in the name of a file, is shown so that nobody is misled."""
    for key, line in (
        ('""', ""),
        ('"a b"', "a b"),
        (r'"a\nunknown key: b"', r"a\x0aunknown key: b"),
        (r'"\u001b[31mred\u0007"', r"\x1b[31mred\x07"),
        (r'"back\\slash \"quoted\""', r'back\\slash "quoted"'),
        (r'"\u007f\u0080"', r"\x7f\xc2\x80"),
        ('"p\u0430use"', r"p\xd0\xb0use"),
        (r'"\u202egnol"', r"\xe2\x80\xaegnol"),
        ("k" * 64, "k" * 64),
        ("k" * 65, "k" * 64 + ".. (65 bytes)"),
        (f'"{"k" * 63}\u0430"', "k" * 63 + r"\xd0.. (65 bytes)"),
        (f'"{"k" * 1_000_000}"', "k" * 64 + ".. (1000000 bytes)"),
    ):
        expect(f"the key {key[:80]}", text_with(other=None, again="60") + f"{key} = 1\n", (*summary()[:2], unknown_lines([line])))
    with tempfile.TemporaryDirectory() as name:
        for command in ("check", "serve"):
            for word, line in (("nosuch.toml", "nosuch.toml"), (".", "."), ("no\nno gate", r"no\x0ano gate"), ("", ""),
                               ("\u0430", r"\xd0\xb0"), ("a" * 5_000, "a" * 4_096 + ".. (5000 bytes)")):
                ran = subprocess.run([PROGRAM, command, word], capture_output=True, text=True, check=False, cwd=name)
                came = ran.returncode, ran.stdout, ran.stderr
                if came != (3, "", f"device fault\ncan't be read: {line}\n"):
                    print(f"{command} {word[:80]}: {came}")
                    sys.exit(1)


def expect_all():
    """Each key of the program has values here."""
    keys = re.findall(r'Key::\w+ => "(\w+)",', (TOP / "crates/service_settings/src/fault.rt").read_text(encoding="utf-8"))
    if set(keys) - {"wait"} != TAKEN.keys() or TAKEN.keys() != REFUSED.keys():
        print(f"without values: {sorted(set(keys) ^ TAKEN.keys() ^ {'wait'})}")
        sys.exit(1)


def summary(gates=2, archives=1, originals=1, peers=1):
    return 0, f"settings ok: gates {gates} archives {archives} originals {originals} peers {peers}\n", ""


def main():
    expect_all()
    expect("the sample", text_with(), summary())
    expect("a list of each length", text_with(gates=listed(3, gate), originals=listed(5, original), peers=listed(7, peer),
                                              archives=archives(("a", "http://a/"), ("b", "http://a/"))), summary(3, 2, 5, 7))
    for key in TAKEN:
        expect(f"no {key}", text_with(**{key: None}), summary() if key in OPTIONAL else fault_of(key))
        for value in TAKEN[key]:
            status, _, said = check(text_with(**{key: value}))
            if (status, said) != (0, unknown_lines(["other"] if key in TELLING else [])):
                print(f"{key} = {value[:80]}: {status}, {said}")
                sys.exit(1)
        for value in REFUSED[key]:
            expect(f"{key} = {value[:80]}", text_with(**{key: value}), told_of(key) if key in TELLING else fault_of(key))
        if key != "originals":
            expect(f"what {key} may hold", text_with(**{"again": "60", key: REFUSED[key][0]}), told_of(key))
    expect_wait()
    expect_walks()
    expect("no text", "", fault_of("base"))
    expect("of two faults the first in the order of the keys", text_with(workers="0", rounds="0"), fault_of("rounds"))
    expect("an optional key is looked for last", text_with(patience="0", archives="7"), fault_of("archives"))
    expect("the optional keys in their order", text_with(patience="0", hosts="7", log="7"), fault_of("patience"))
    expect("of the last two the first", text_with(hosts="7", log="7"), fault_of("hosts"))
    keys = ["walks", "at_once", *list(OWN)[1:], "agent", "ready", "snapshot", "snapshot_every", "formats", "status", "together", "wait", "forget",
            "withdrawn_file", "most"]
    for key, later in zip(keys, keys[1:]):
        expect(f"of {key} and {later} the first", text_with(**{key: "{}", later: "{}"}), told_of(key) if {key, later} & TELLING else fault_of(key))
    expect("the specified keys before all others", text_with(log="7", at_once="0"), fault_of("log"))
    expect("no TOML", "base =", fault_of("text"))
    expect("a key twice", text_with() + "pause = 1\n", fault_of("text"))
    expect("no UTF-8", b"# \xff\n" + text_with().encode(), fault_of("text"))
    expect("a byte order mark at the beginning", "\ufeff" + text_with(), summary())
    expect("one anywhere else", text_with() + "\ufeff", fault_of("text"))
    most = text_with() + "#" * (MOST_BYTES - len(text_with()))
    expect("as many bytes as may be", most, summary())
    expect("a byte more", most + "#", fault_of("text"))
    expect_entries()
    expect_unknown()
    expect_logged()
    expect_shown()
    expect_lines()
    rows = sum(len(rows[key]) for rows in (TAKEN, REFUSED) for key in rows)
    print(f"each key but the optional ones is missed by its name, and {rows} values stand on the right side of their limits")


if __name__ == "__main__":
    main()
