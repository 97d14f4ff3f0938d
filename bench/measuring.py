"""What measurements of a service share: what they print, quantiles, and the time that a program took."""
import os
import pathlib


def say(name, value, unit=""):
    print(f"{name}: {value} {unit}".rstrip(), flush=True)


def quantile(values, part):
    """The value that this part of the values doesn't exceed; 0 if there are none."""
    return sorted(values)[min(int(len(values) * part), len(values) - 1)] if values else 0


def spent(process):
    """The processor's seconds that a program took, of user and of system."""
    fields = pathlib.Path(f"/proc/{process.pid}/stat").read_text().rpartition(")")[2].split()
    return [int(fields[place]) / os.sysconf("SC_CLK_TCK") for place in (11, 12)]
