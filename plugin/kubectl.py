"""Asks the cluster, by kubectl."""
from __future__ import annotations

import shutil
from concurrent.futures import Future, ThreadPoolExecutor
from typing import IO, Callable, Dict, List, Optional, Sequence, TypeVar

from plugin import children
from plugin.said import stop

# How many requests run at once.
_AT_ONCE = 8

Question = TypeVar("Question")
Answer = TypeVar("Answer")


class Kubectl:
    """kubectl as the path has it, with the options that say which cluster, and as whom."""

    def __init__(self, options: List[str]) -> None:
        self._options = options

    def raw(self, path: str) -> children.Ended:
        """The answer of the API at the path."""
        return self._run("get", "--raw", path)

    def names(self, resource: str) -> children.Ended:
        """The names of all objects of a resource. The cluster named it, so it stands where no option can."""
        return self._run("get", "--all-namespaces", "--output", "name", "--", resource)

    def _run(self, *words: str) -> children.Ended:
        return run([*self._options, *words])


def find() -> str:
    """The path of kubectl."""
    path = shutil.which("kubectl")
    if path is None:
        stop(3, "kubectl is not on the path")
    return path


def run(words: List[str], stdin: Optional[IO[bytes]] = None, environment: Optional[Dict[str, str]] = None) -> children.Ended:
    """Runs kubectl with the words; ends with status 3 where it cannot be run."""
    try:
        return children.run([find(), *words], stdin=stdin, environment=environment)
    except OSError as error:
        stop(3, "kubectl cannot be run: %s" % error.strerror)


def ask_all(ask: Callable[[Question], Answer], questions: Sequence[Question]) -> List[Answer]:
    """The answers to the questions in their order, some asked at once. The first that fails ends the others."""
    pool = ThreadPoolExecutor(_AT_ONCE)
    futures: "List[Future[Answer]]" = [pool.submit(ask, question) for question in questions]
    try:
        return [future.result() for future in futures]
    except BaseException:
        children.end_running()
        raise
    finally:
        pool.shutdown(cancel_futures=True)
