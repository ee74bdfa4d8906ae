"""What `np` answers, and its connections as sets."""
import ipaddress
import json
import os
import subprocess
import tempfile

PROTOCOLS = ("TCP", "UDP", "SCTP")


class Broken(Exception):
    """A relation that does not hold, with what was found."""


def demand(holds, told):
    if not holds:
        raise Broken(told)


class Program:
    """The program, asked over files of lists in a folder of its own. `wrong` may change what it answers."""

    def __init__(self, path, wrong=None):
        self.path, self.wrong = path, wrong
        self.folder = tempfile.TemporaryDirectory()

    def run(self, words, *lists, statements=None):
        """The status and the lines of standard output, over lists of items, each in a file of its own."""
        files = []
        for number, items in enumerate(lists):
            files.append(os.path.join(self.folder.name, "%d.json" % number))
            with open(files[-1], "w") as file:
                json.dump({"apiVersion": "v1", "kind": "List", "items": items}, file)
        if statements is not None:
            path = os.path.join(self.folder.name, "statements")
            with open(path, "w") as file:
                file.writelines(line + "\n" for line in statements)
            words = [*words, "--statement", path]
        done = subprocess.run([self.path, *words, *files], capture_output=True, text=True, timeout=60)
        lines = done.stdout.splitlines()
        if self.wrong:
            lines = self.wrong(words, lists, lines)
        return done.returncode, lines

    def rows(self, words, *lists):
        """The lines of a command that has to succeed."""
        status, lines = self.run(words, *lists)
        demand(status == 0, "%s ends with status %d" % (words[0], status))
        return lines


def row(line):
    """The source, the destination and the connections of a row of text."""
    ends, conns = line.rsplit(" : ", 1)
    source, destination = ends.split(" => ")
    return source, destination, conns


def run_of(low, high):
    """The ports from low to high, as bits."""
    return (1 << high + 1) - (1 << low)


EVERYTHING = (run_of(1, 65535),) * 3


def connections(text):
    """What is written as `TCP 1-52,54; UDP 53`: of each protocol the set of its ports, as bits."""
    if text == "All Connections":
        return EVERYTHING
    found = dict.fromkeys(PROTOCOLS, 0)
    for part in text.split("; ") if text != "No Connections" else []:
        protocol, runs = part.split(" ")
        for run in runs.split(","):
            low, _, high = run.partition("-")
            found[protocol] |= run_of(int(low), int(high or low))
    return tuple(found.values())


def runs_of(ports):
    """The runs of a set of ports, each with its first and its last one."""
    low = 0
    while ports:
        skipped = (ports & -ports).bit_length() - 1
        low, ports = low + skipped, ports >> skipped
        long = (~ports & ports + 1).bit_length() - 1
        yield low, low + long - 1
        low, ports = low + long, ports >> long


def written(conns):
    """The other way: the text of connections."""
    if conns == EVERYTHING:
        return "All Connections"
    parts = []
    for protocol, ports in zip(PROTOCOLS, conns):
        runs = [str(low) if low == high else "%d-%d" % (low, high) for low, high in runs_of(ports)]
        parts += ["%s %s" % (protocol, ",".join(runs))] if runs else []
    return "; ".join(parts) or "No Connections"


def union(sets):
    """What is in some of the sets."""
    joined = [0, 0, 0]
    for conns in sets:
        joined = [one | other for one, other in zip(joined, conns)]
    return tuple(joined)


def addresses(text):
    """The addresses of `10.0.0.0/8,11.0.0.0/9` or `10.0.0.0-11.127.255.255`, as CIDRs; a workload stays as it is."""
    if "[" in text or "{" in text:
        return text
    if "-" in text:
        low, high = map(ipaddress.ip_address, text.split("-"))
        return list(ipaddress.summarize_address_range(low, high))
    return [ipaddress.ip_network(part) for part in text.split(",")]
