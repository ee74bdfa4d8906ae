"""The runs of bench/slow.py: what one took, which bounds it breaks, and at which smaller sizes it is run again, to tell how it grows."""
import os
import resource
import signal
import subprocess
import tempfile

MOST_BYTES = 2000000 * 1024
LARGE = 1000000000
# A run that took no more than these is not run again at half the size: what it takes is mostly the start of the program.
SHORT = 1
SMALL = 100000000
# The parts of the full size: a half, a quarter, and so on. The last is only ever the half of the one before, at which alone there was an
# answer.
PARTS = (1, 2, 4, 8, 16)


def run(words, seconds):
    """What a run took, and how it ended."""
    def bounded():
        resource.setrlimit(resource.RLIMIT_CPU, (seconds, seconds))
        resource.setrlimit(resource.RLIMIT_AS, (MOST_BYTES, MOST_BYTES))
        resource.setrlimit(resource.RLIMIT_CORE, (0, 0))
    with tempfile.TemporaryFile() as said:
        process = subprocess.Popen(words, stdin=subprocess.DEVNULL, stdout=subprocess.PIPE, stderr=said, preexec_fn=bounded)
        printed = 0
        while chunk := os.read(process.stdout.fileno(), 1 << 20):
            printed += len(chunk)
        process.stdout.close()
        _, status, used = os.wait4(process.pid, 0)
        said.seek(0)
        fault = said.readline(200).decode(errors="replace").strip()
    return {"took": used.ru_utime + used.ru_stime, "status": os.waitstatus_to_exitcode(status), "memory": used.ru_maxrss * 1024,
            "printed": printed, "fault": fault if fault.startswith("error:") else "", "seconds": seconds}


def was_ended(done):
    """Whether it was ended after its seconds."""
    return done["status"] in (-signal.SIGXCPU, -signal.SIGKILL)


def lacked_memory(done):
    return done["status"] in (4, -signal.SIGABRT)


def has_answer(done):
    return not was_ended(done) and not lacked_memory(done)


def breach(done, refused):
    """Which bounds a run breaks."""
    slow = was_ended(done) or done["took"] > done["seconds"]
    large = done["memory"] > LARGE or lacked_memory(done)
    if slow or large:
        return ", ".join(["slow"] * slow + ["large"] * large)
    return "refused" if (done["status"] not in (0, 5) or done["fault"] != "") != refused else ""


def next_part(parts):
    """The part of the full size at which a command is run next, where these are its runs by part so far, or None."""
    last = max(parts)
    answers = [part for part, done in parts.items() if has_answer(done)]
    light = answers == [1] and parts[1]["took"] <= SHORT and parts[1]["memory"] <= SMALL
    wanted = 2 * last < PARTS[-1] if not answers else len(answers) == 1 and not light
    return 2 * last if wanted else None


def growth(parts):
    """The greatest part of the full size that has an answer where its half has one, too, and how many times its half it took: of time, and
    of memory. None where that was not measured."""
    for part, done in sorted(parts.items()):
        half = parts.get(2 * part)
        if half and has_answer(done) and has_answer(half):
            return part, done["took"] / max(half["took"], 0.01), done["memory"] / half["memory"]
    return None
