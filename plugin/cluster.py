"""The objects of a cluster, page by page: what np reads of a page is kept, and the page goes.

kubectl prints what the API answers, and each answer is looked at: whether it is of the kind that was asked for, and
whether it is whole.
"""
from __future__ import annotations

import json
from typing import Any, Dict, List, NoReturn, Optional, Tuple
from urllib.parse import quote

from plugin import context, discovery, jsontext
from plugin.caveats.beside import Beside
from plugin.kinds import Kind
from plugin.kubectl import Kubectl, ask_all
from plugin.members import Spool, write_within_limits
from plugin.rollouts import Rollouts
from plugin.room import Room
from plugin.said import step, stop
from plugin.words import Words

# How many objects a page has.
_PAGE = 500


def fetch(words: Words, room: Room, beside: Beside) -> None:
    """Writes what np reads of all objects of the cluster into the file `list` of the room; ends with status 3 where
    not all can be had."""
    context.tell(words.kubectl)
    kubectl = Kubectl(words.kubectl)
    Cluster(kubectl, room, beside).fetch(discovery.find_kinds(kubectl, words.ignored))


class _Expired(Exception):
    """The server no longer has the list that was being read: it changed too often meanwhile."""


class Cluster:
    """Fetches objects into files of the room."""

    def __init__(self, kubectl: Kubectl, room: Room, beside: Beside) -> None:
        self._kubectl = kubectl
        self._room = room
        self._beside = beside
        self._rollouts = Rollouts()

    def fetch(self, present: List[Kind]) -> None:
        """Writes what np reads of the objects of the kinds into the file `list`."""
        step("fetching the objects of %d kinds" % len(present))
        with self._room.writing():
            spools = ask_all(self._fetch_kind, present)
            step("keeping what np reads")
            with self._room.create("list") as file:
                write_within_limits(file, spools, self._room, self._beside)

    def _fetch_kind(self, kind: Kind) -> Spool:
        try:
            return self._fetch_pages(kind, "?limit=%d" % _PAGE)
        except _Expired:
            return self._fetch_pages(kind, "")  # all at once, as kubectl does then

    def _fetch_pages(self, kind: Kind, query: str) -> Spool:
        spool = Spool(self._room, kind.resource, self._rollouts, self._beside)
        token: Optional[str] = ""
        while token is not None:
            items, token = self._fetch_page(kind, query, token)
            for item in items:
                spool.add(_typed(item, kind))
        spool.close()
        return spool

    def _fetch_page(self, kind: Kind, query: str, token: str) -> Tuple[List[Any], Optional[str]]:
        """The items of a page, and the token of the next one where there is one."""
        path = "%s%s%s" % (kind.path, query, "&continue=" + quote(token, safe="") if token else "")
        ended = self._kubectl.raw(path)
        if ended.status and token and b"(Expired)" in ended.said:
            raise _Expired
        if ended.status:
            stop(3, "the cluster does not give all objects, so there is no answer (kubectl get: status %d)" % ended.status, ended.said)
        page = _page_of(ended.out, kind, path)
        metadata = page.get("metadata") or {}
        more = metadata.get("continue") or None
        if more is None and metadata.get("remainingItemCount"):
            _refuse(path, "it says that more follow, and not where")
        if more is not None and more == token:
            _refuse(path, "it says again what it said before")
        return page["items"] or [], more


def _refuse(path: str, reason: str) -> NoReturn:
    stop(3, "the cluster does not give all objects, so there is no answer (kubectl get --raw %s: %s)" % (path, reason))


def _page_of(data: bytes, kind: Kind, path: str) -> Dict[str, Any]:
    """The answer of the API as what it has to be: a list of the kind."""
    try:
        page = jsontext.read(data)
    except jsontext.NotTaken as error:
        _refuse(path, "no JSON, %s" % error)
    if not isinstance(page, dict) or (page.get("apiVersion"), page.get("kind")) != (kind.api_version, kind.name + "List"):
        _refuse(path, "no %sList" % kind.name)
    if not isinstance(page.get("metadata") or {}, dict) or not isinstance(page.get("items", ""), (list, type(None))):
        _refuse(path, "a list without items")
    return page


def _typed(item: Any, kind: Kind) -> Any:
    """The item with its type, which the API leaves out in lists; kubectl prints it too."""
    if not isinstance(item, dict):
        return item
    named = (item.get("apiVersion", kind.api_version), item.get("kind", kind.name))
    if named != (kind.api_version, kind.name):
        _refuse(kind.path, "an object of the kind %s among them" % json.dumps(named[1]))
    return dict(item, apiVersion=kind.api_version, kind=kind.name)
