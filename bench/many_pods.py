#!/usr/bin/env python3
"""What `kubectl np` needs for clusters of very many pods: bench/many_pods.py [--pods NUMBER]..

In the place of kubectl is tools/fake-cluster, whose pods have 6 kB each that np does not read. Of each number of pods (10,000, 30,000
and 100,000 without a word), in 1,500 workloads, a line says how long `snapshot` and `list` with a focus take, and how much memory the
largest of their processes has; and how long the stand-in takes for the pages of pods alone. The numbers are those of one machine;
docs/use/PLUGIN.md has them.
"""
from __future__ import annotations

import argparse
import os
import subprocess
import sys
import tempfile
import time
from pathlib import Path
from typing import Dict, List, Tuple

TOP = Path(os.path.abspath(__file__)).parent.parent
FAKE = TOP / "tools" / "fake-cluster"
COMMANDS = (["snapshot"], ["list", "--focus", "s3/w3[Deployment]"])
PAGE = 500

# A process begins as a copy of the one that starts it, whose memory then counts as its own. So a small one starts the plugin.
STARTER = """
import os, sys
started = os.fork()
if not started:
    os.execv(sys.argv[1], sys.argv[1:])
_, status, used = os.wait4(started, 0)
os.write(2, b"\\n%d %d" % (os.waitstatus_to_exitcode(status), used.ru_maxrss))
"""


def measured(words: List[str], environment: Dict[str, str]) -> Tuple[float, int]:
    """The seconds of a question, and the memory of its largest process in kB."""
    begun = time.monotonic()
    done = subprocess.run([sys.executable, "-S", "-c", STARTER, str(TOP / "kubectl-np"), *words], env=environment, check=True,
                          stdout=subprocess.DEVNULL, stderr=subprocess.PIPE)
    status, memory = map(int, done.stderr.rsplit(b"\n", 1)[1].split())
    if status:
        sys.exit(done.stderr.decode())
    return time.monotonic() - begun, memory


def stand_in(environment: Dict[str, str], pods: int) -> float:
    """The seconds that the stand-in takes for the pages of the pods."""
    begun = time.monotonic()
    for start in range(0, pods, PAGE):
        path = "/api/v1/pods?limit=%d&continue=%d" % (PAGE, start)
        subprocess.run(["kubectl", "get", "--raw", path], env=environment, check=True, stdout=subprocess.DEVNULL)
    return time.monotonic() - begun


def main() -> None:
    words = argparse.ArgumentParser(description=__doc__, formatter_class=argparse.RawDescriptionHelpFormatter)
    words.add_argument("--pods", type=int, action="append")
    for pods in words.parse_args().pods or [10_000, 30_000, 100_000]:
        with tempfile.TemporaryDirectory() as folder:
            Path(folder, "cluster").write_text("pods = %d\npadding = 6000\nexec(large())\n" % pods)
            path = "%s:%s" % (FAKE, os.environ["PATH"])
            environment = dict(os.environ, PATH=path, KUBECTL_NP_PROGRAM=str(TOP / "dist" / "np"), XDG_CACHE_HOME=folder)
            os.chdir(folder)
            found = ["%s %.0f s, %d MB" % (words[0], seconds, memory // 1000)
                     for words in COMMANDS for seconds, memory in [measured(words, environment)]]
            print("%d pods: %s; the pages %.0f s" % (pods, "; ".join(found), stand_in(environment, pods)), flush=True)
            os.chdir(TOP)


if __name__ == "__main__":
    main()
