#!/usr/bin/env python3
"""A second program for the commands of np: `program.py COMMAND ..` writes, to the byte, what `np COMMAND ..` writes.

It is written from docs/proof/THEOREM.txt and examples/ alone, by one who has not seen the sources of np. What the text does not say
is guessed; DIARY.md says where."""
import os
import re
import sys
from functools import lru_cache
from typing import Callable, Dict, List, NamedTuple, Sequence, Tuple

if __package__ in (None, ""):
    sys.path.insert(0, os.path.dirname(os.path.dirname(os.path.abspath(__file__))))
    __package__ = "second"

from second.check import check_reply
from second.cluster import Cluster, Workload, workloads_of
from second.explain import evaluate_reply, explain_reply, unused_reply
from second.exposure import exposure_reply
from second.flatten import flatten_reply
from second.model import PROTOCOLS, Estate, Span
from second.reading import Refused, estate_of
from second.table import list_reply, route_notes, sample_reply, sample_text
from second.values import SURROGATE
from second.words import USAGE, Job, job_of

SIZE_LIMIT = 33554432
CONTROL = re.compile("[\x00-\x1f\x7f-\x9f]")
DONE, REFUSED, WRONG_USE, DEVICE, VIOLATED = 0, 1, 2, 3, 5

# The bytes of the input of a name; OSError where it cannot be read.
Source = Callable[[str], bytes]


class Answer(NamedTuple):
    """What a run answers: its status, its report, and what is said of that."""
    status: int
    out: bytes
    err: bytes


def texts_of(job: Job, source: Source) -> List[bytes]:
    """The bytes of the inputs of a job, each read once, in their order; OSError with the name of one that cannot be read."""
    texts: List[bytes] = []
    for name in job.files if job.command != "sample" else ():
        try:
            texts.append(source(name))
        except OSError:
            raise OSError(name) from None
        if sum(len(data) for data in texts) > SIZE_LIMIT:
            raise Refused("TooLarge")
    return texts


@lru_cache(maxsize=8)
def small_estate(texts: Tuple[bytes, ...]) -> Tuple[Estate, List[Workload]]:
    """What all inputs say together, and its workloads."""
    estate = estate_of(texts)
    return estate, workloads_of(estate)


REPLIES: Dict[str, Callable[[Cluster, Job], str]] = {
    "list": lambda cluster, job: list_reply(cluster, job.options),
    "explain": lambda cluster, job: explain_reply(cluster, job.ends()),
    "exposure": lambda cluster, job: exposure_reply(cluster, job.options),
    "unused": lambda cluster, job: unused_reply(cluster),
    "flatten": lambda cluster, job: flatten_reply(cluster),
    "sample": lambda cluster, job: sample_reply(cluster),
}


def reply(job: Job, texts: Sequence[bytes], estate: Estate, workloads: List[Workload]) -> Tuple[str, bool]:
    """What a job prints, and whether all holds that it was to check."""
    if job.command == "check":
        return check_reply(estate, workloads, texts[0])
    if job.command == "evaluate":
        port = int(job.options["port"])
        return evaluate_reply(estate, workloads, job.ends(), Span(PROTOCOLS[job.options["protocol"]], port, port)), True
    return REPLIES[job.command](Cluster(estate, workloads), job), True


def notes_text(job: Job, estate: Estate) -> str:
    """What is said of a whole report: what was left out of it, and of `list` which backends lead nowhere; of `sample` nothing."""
    lines = "".join("note: %s: %d\n" % note for note in estate.notes.items() if note[1] and job.command != "sample")
    return lines + (route_notes(estate) if job.command == "list" else "")


def answer(job: Job, source: Source) -> Answer:
    """The answer of a job."""
    texts = texts_of(job, source)
    objects = [sample_text(int(job.files[0]))] if job.command == "sample" else texts[job.command == "check":]
    estate, workloads = small_estate(tuple(objects))
    text, holds = reply(job, texts, estate, workloads)
    return Answer(DONE if holds else VIOLATED, text.encode(), notes_text(job, estate).encode() if holds else b"")


def in_one_line(found: "re.Match[str]") -> str:
    """A control character, as it stands in one line."""
    return {"\t": "\\t", "\n": "\\n", "\r": "\\r"}.get(found.group(), "\\u{%x}" % ord(found.group()))


def error_line(what: str) -> bytes:
    """What fails, in one line: its control characters are escaped, and nothing else."""
    return ("error: %s\n" % CONTROL.sub(in_one_line, what)).encode()


def run(words: Sequence[str], source: Source) -> Answer:
    """The answer of the words of a command line, which asks for nothing where a word is no text."""
    job = None if SURROGATE.search("".join(words)) else job_of(words)
    if job is None:
        return Answer(WRONG_USE, b"", USAGE.encode())
    try:
        return answer(job, source)
    except Refused as refused:
        return Answer(REFUSED, b"", error_line(str(refused)))
    except OSError as failed:
        return Answer(DEVICE, b"", error_line("cannot read %s" % failed))


def read_system(name: str) -> bytes:
    """The bytes of a file, or of standard input, of which `-` is the name."""
    with open(0 if name == "-" else name, "rb", closefd=name != "-") as file:
        return file.read()


def write_whole(descriptor: int, data: bytes) -> bool:
    """Whether a sink of the system took all of some bytes."""
    try:
        while data:
            data = data[os.write(descriptor, data):]
        return True
    except OSError:
        return False


def main() -> int:
    """Runs the program on the words after its name."""
    found = run(sys.argv[1:], read_system)
    if not write_whole(1, found.out):
        found = Answer(DEVICE, b"", b"error: cannot write\n")
    write_whole(2, found.err)
    return found.status


if __name__ == "__main__":
    sys.exit(main())
