#!/usr/bin/env python3
"""The rules for Prometheus (deploy/alerts.yaml): each names metrics, labels and outcomes that docs/OPERATING.md lists, which tests/status
compares with the program. By promtool, where it is, each rule fires for what it is about, and none fires for a service that is well.

    tests/alerts.py          for more: apt-get install prometheus

Planted: a metric, a label and an outcome that the program doesn't have; a rule without words; and for promtool a wrong bound of each rule.
"""
import json
import pathlib
import re
import shutil
import subprocess
import tempfile

from playing import TOP, holds, same

RULES = TOP / "deploy/alerts.yaml"
OTHERS = {"up": {"job", "instance"}}    # what Prometheus itself knows
ANYWHERE = {"job", "instance"}          # labels that it adds
HOUR = 60                               # in the steps of a minute in which series are given here


def read_rules(text):
    """The rules of a file of this one's layout: of each its keys, with an expression over several lines as one."""
    rules, lines = [], [line for line in text.splitlines() if line.strip() and not line.lstrip().startswith("#")]
    same("its head", lines[:3], ["groups:", "  - name: maplewrench", "    rules:"])
    for line in lines[3:]:
        indent, word = len(line) - len(line.lstrip()), line.strip()
        if indent == 6 and word.startswith("- alert: "):
            rules.append({"alert": word.removeprefix("- alert: ")})
        elif indent == 8 and (pair := re.fullmatch(r"(expr|for|labels|annotations): ?(.*)", word)):
            rules[-1][pair[1]] = pair[2]
        elif indent == 10 and word.startswith("summary: "):
            rules[-1]["summary"] = json.loads(word.removeprefix("summary: "))
        elif indent == 10 and "summary" not in rules[-1]:
            rules[-1]["expr"] += " " + word
        else:
            holds(f"this line is understood: {line}", False)
    return rules


def listed_metrics():
    """Labels of each metric, and the outcomes of each kind, by the tables of docs/OPERATING.md."""
    text = (TOP / "docs/OPERATING.md").read_text(encoding="utf-8")
    metrics = {row[0]: set(re.findall(r"`(\w+)`", row[1])) for row in re.findall(r"(?m)^\| `(\w+)` \| (?:gauge|counter) \|([^|]*)\|", text)}
    outcomes = {kind: set(re.findall(r"`(\w+)`", row)) for kind, row in re.findall(r"(?m)^\| a (walk|pull|publish|snapshot|forgetting|wish) \| (.*) \|$", text)}
    return metrics | OTHERS, outcomes


def kind_of(metric):
    """What a counter counts by outcome."""
    return metric.removeprefix("maplewrench_").split("_")[0].removesuffix("es" if "publish" in metric or "wish" in metric else "s")


def faults_of(rule, metrics, outcomes):
    """What a rule names that isn't there, or lacks."""
    faults = [key for key in ("expr", "labels", "summary") if not rule.get(key)]
    if rule.get("labels") not in ("{severity: page}", "{severity: ticket}"):
        faults.append(f"labels {rule.get('labels')}")
    if not re.fullmatch(r"\d+[mhd]", rule.get("for", "1m")):
        faults.append(f"for {rule['for']}")
    expression = rule.get("expr", "")
    named = re.findall(r"\b(up|maplewrench_\w+|process_\w+)(?:\{([^}]*)\})?", expression)
    faults += [] if named else ["no metric"]
    for metric, selector in named:
        if metric not in metrics:
            faults.append(metric)
            continue
        for label, _, value in re.findall(r'(\w+)(=~|!~|!=|=)"([^"]*)"', selector):
            if label not in metrics[metric] | ANYWHERE:
                faults.append(f"{metric}: {label}")
            if label == "outcome":
                faults += [f"{metric}: {each}" for each in value.split("|") if each not in outcomes[kind_of(metric)]]
    used = set(re.findall(r"\$labels\.(\w+)", rule.get("summary", "")))
    by = re.search(r"\bby \(([^)]*)\)", expression)
    there = set(re.split(r",\s*", by[1])) if by else ANYWHERE | set.intersection(*(metrics.get(metric, set()) for metric, _ in named)) if named else set()
    return faults + [f"$labels.{label}" for label in used - there]


def try_reading(rules):
    metrics, outcomes = listed_metrics()
    holds(f"{len(metrics)} metrics and the outcomes of {sorted(outcomes)} are listed", len(metrics) > 30 and len(outcomes) == 6)
    for rule in rules:
        faults = faults_of(rule, metrics, outcomes)
        holds(f"{rule['alert']} names what there is: {faults or rule['expr']}", not faults)
    same("each name once", len({rule["alert"] for rule in rules}), len(rules))
    spoilt = [("maplewrench_shown", "maplewrench_seen"), ('outcome="no_memory"', 'outcome="no_money"'), ('status="503"', 'state="503"'),
              ("$labels.archive", "$labels.name"), ("        labels: {severity: page}\n", ""), ("        for: 5m", "        for: five")]
    text = RULES.read_text(encoding="utf-8")
    for old, new in spoilt:
        spoilt_rules = read_rules(text.replace(old, new))
        holds(f"a file with {new.strip() or 'no labels'} has faults", any(faults_of(rule, metrics, outcomes) for rule in spoilt_rules))


# What is told in each minute of a day and more by a service that is well, and by one of which each rule is true.
MINUTES = 28 * HOUR
WELL = {
    'up{job="maplewrench",instance="a"}': f"1x{MINUTES}", 'maplewrench_shown{instance="a"}': f"1x{MINUTES}",
    'maplewrench_last_publish_timestamp_seconds{instance="a"}': f"0+60x{MINUTES}", 'maplewrench_publishes_total{instance="a",outcome="no_memory"}': f"0x{MINUTES}",
    'maplewrench_walks_total{instance="a",archive="x",outcome="no_memory"}': f"0x{MINUTES}",
    'maplewrench_walks_total{instance="a",archive="x",outcome="whole"}': f"0+10x{MINUTES}", 'maplewrench_walks_total{instance="a",archive="x",outcome="part"}': f"0x{MINUTES}",
    'maplewrench_walks_total{instance="a",archive="x",outcome="status"}': f"0+1x{MINUTES}", 'maplewrench_pulls_total{instance="a",peer="p",outcome="no_memory"}': f"0x{MINUTES}",
    'process_resident_memory_bytes{job="maplewrench",instance="a"}': f"1000000000x{MINUTES}",
    'maplewrench_archive_dormant_until_timestamp_seconds{instance="a",archive="x"}': f"0x{MINUTES}",
    'maplewrench_peer_last_delta_timestamp_seconds{instance="a",peer="p"}': f"0+60x{MINUTES}", 'maplewrench_clock_seconds{instance="a"}': f"0+60x{MINUTES}",
    'maplewrench_archive_aside_until_timestamp_seconds{instance="a",archive="x"}': f"0x{MINUTES}",
    'maplewrench_snapshots_total{instance="a",outcome="failed"}': f"0x{MINUTES}", 'maplewrench_snapshot_behind{instance="a"}': f"1x{MINUTES}",
    'maplewrench_last_snapshot_timestamp_seconds{instance="a"}': f"0+60x{MINUTES}", 'maplewrench_wishes_total{instance="a",outcome="late"}': f"0x{MINUTES}",
    'maplewrench_wanted_used{instance="a"}': f"80x{MINUTES}", 'maplewrench_wanted_limit{instance="a"}': f"100x{MINUTES}",
    'maplewrench_forgettings_total{instance="a",outcome="refused"}': f"0x{MINUTES}", 'maplewrench_forgettings_total{instance="a",outcome="forgotten"}': f"0+1x{MINUTES}",
    'maplewrench_floor_timestamp_seconds{instance="a"}': f"-90000+60x{MINUTES}", 'maplewrench_unlisted_mementos{instance="a"}': f"90x{MINUTES}",
    'maplewrench_list_bad_lines{instance="a"}': f"0x{MINUTES}", 'maplewrench_last_list_timestamp_seconds{instance="a"}': f"0+60x{MINUTES}",
    'maplewrench_revisions_ahead{instance="a"}': f"0x{MINUTES}", 'maplewrench_build_info{instance="a",version="1"}': f"1x{MINUTES}",
    'maplewrench_wishes_total{instance="a",outcome="turned_away"}': f"0x{MINUTES}", 'maplewrench_replies_total{instance="a",gate="1",status="503"}': f"3x{MINUTES}",
}
# What is otherwise where a rule is to fire.
ILL = {
    "MaplewrenchIsDown": {'up{job="maplewrench",instance="a"}': f"0x{MINUTES}"},
    "MaplewrenchShowsNothing": {'maplewrench_shown{instance="a"}': f"0x{MINUTES}"},
    "MaplewrenchPublishesNothing": {'maplewrench_last_publish_timestamp_seconds{instance="a"}': f"0x{MINUTES}"},
    "MaplewrenchPublishesFail": {'maplewrench_publishes_total{instance="a",outcome="no_memory"}': f"0+1x{MINUTES}"},
    "MaplewrenchLacksMemory": {'maplewrench_pulls_total{instance="a",peer="p",outcome="no_memory"}': f"0+1x{MINUTES}"},
    "MaplewrenchIsNearItsMemory": {'process_resident_memory_bytes{job="maplewrench",instance="a"}': f"2900000000x{MINUTES}"},
    "MaplewrenchArchiveSleeps": {'maplewrench_archive_dormant_until_timestamp_seconds{instance="a",archive="x"}': f"600+60x{MINUTES}"},
    "MaplewrenchArchiveGivesNothing": {'maplewrench_walks_total{instance="a",archive="x",outcome="whole"}': f"9x{MINUTES}"},
    "MaplewrenchArchiveIsSetAside": {'maplewrench_archive_aside_until_timestamp_seconds{instance="a",archive="x"}': f"600+60x{MINUTES}"},
    "MaplewrenchSnapshotsFail": {'maplewrench_snapshots_total{instance="a",outcome="failed"}': f"0+1x{MINUTES}"},
    "MaplewrenchSnapshotIsOld": {'maplewrench_last_snapshot_timestamp_seconds{instance="a"}': f"0x{MINUTES}"},
    "MaplewrenchPeerIsSilent": {'maplewrench_peer_last_delta_timestamp_seconds{instance="a",peer="p"}': f"0x{MINUTES}"},
    "MaplewrenchClockIsOff": {'maplewrench_clock_seconds{instance="a"}': f"100+60x{MINUTES}"},
    "MaplewrenchRefusesWishes": {'maplewrench_wishes_total{instance="a",outcome="turned_away"}': f"0+1x{MINUTES}"},
    "MaplewrenchWishesAreLate": {'maplewrench_wishes_total{instance="a",outcome="late"}': f"0+1x{MINUTES}"},
    "MaplewrenchRoomIsUsedUp": {'maplewrench_wanted_used{instance="a"}': f"95x{MINUTES}"},
    "MaplewrenchForgetsNothing": {'maplewrench_forgettings_total{instance="a",outcome="refused"}': f"0+1x{MINUTES}"},
    "MaplewrenchForgetsSoon": {'maplewrench_floor_timestamp_seconds{instance="a"}': f"-3600+60x{MINUTES}"},
    "MaplewrenchDropsHarvests": {'maplewrench_unlisted_mementos{instance="a"}': f"99x{MINUTES}",
                                 'maplewrench_unlisted_mementos_limit{instance="a"}': f"100x{MINUTES}"},
    "MaplewrenchListHasBadLines": {'maplewrench_list_bad_lines{instance="a"}': f"3x{MINUTES}"},
    "MaplewrenchListIsUnread": {'maplewrench_last_list_timestamp_seconds{instance="a"}': f"0x{MINUTES}"},
    "MaplewrenchRevisionsAreAhead": {'maplewrench_revisions_ahead{instance="a"}': f"2x{MINUTES}"},
    "MaplewrenchVersionsDiffer": {'maplewrench_build_info{instance="b",version="2"}': f"1x{MINUTES}"},
    "MaplewrenchGateFails": {'maplewrench_replies_total{instance="a",gate="1",status="503"}': f"3+1x{MINUTES}"},
}


def firing(told, rules, hours, count):
    """A test of promtool: how many alerts of each of these rules fire after so many hours of these series."""
    queries = [{"expr": f'count(ALERTS{{alertname="{rule}",alertstate="firing"}}) or vector(0)', "eval_time": f"{hours}h",
                "exp_samples": [{"labels": "{}", "value": count}]} for rule in rules]
    return {"interval": "1m", "input_series": [{"series": name, "values": values} for name, values in told.items()], "promql_expr_test": queries}


def try_promtool(rules):
    if shutil.which("promtool") is None:
        return "; for more: apt-get install prometheus"
    ran = subprocess.run(["promtool", "check", "rules", RULES], capture_output=True, text=True)
    holds(f"promtool takes it: {(ran.stdout + ran.stderr).split()[-3:]}", ran.returncode == 0)
    same("each rule is tried", [rule["alert"] for rule in rules], list(ILL))
    tests = [firing(WELL, ILL, 27, 0)] + [firing(WELL | other, [rule], 27 if "GivesNothing" in rule or "Differ" in rule else 5, 1) for rule, other in ILL.items()]
    with tempfile.TemporaryDirectory() as folder:
        file = pathlib.Path(folder) / "tests.yaml"    # JSON is YAML
        file.write_text(json.dumps({"rule_files": [str(RULES)], "evaluation_interval": "5m", "tests": tests}))
        ran = subprocess.run(["promtool", "test", "rules", file], capture_output=True, text=True)
    holds(f"by promtool each of {len(ILL)} rules fires for what it is about, and none for a service that is well {(ran.stdout + ran.stderr)[-1500:] if ran.returncode else ''}",
          ran.returncode == 0)
    return " and by promtool"


def main():
    rules = read_rules(RULES.read_text(encoding="utf-8"))
    try_reading(rules)
    more = try_promtool(rules)
    print(f"{len(rules)} rules for Prometheus name what the program tells, by their text{more}")


if __name__ == "__main__":
    main()
