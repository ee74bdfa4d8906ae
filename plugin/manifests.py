"""Manifests, without a cluster: -f and -k. kubectl reads them, as it does for `kubectl apply`, and nothing is lost."""
from __future__ import annotations

import re
from collections import Counter
from pathlib import Path
from typing import Any, Dict, Iterator, List, Optional

from plugin import documents, kinds, kubectl, unknown
from plugin.caveats.beside import Beside, UnknownLabel
from plugin.caveats.owners import workload
from plugin.controllers import pods_of, unknown_labels
from plugin.documents import Document
from plugin.members import Spool, write_list
from plugin.objects import is_foreign, is_namespaced, named, namespace_of, type_of, whole_kind
from plugin.reader import NO_CLUSTER, Manifest, Reader
from plugin.rollouts import Rollouts
from plugin.room import Room
from plugin.said import note, say, step, stop
from plugin.words import Words

# An overlay may name addresses, which kustomize fetches itself or by git. Without --allow-urls neither gets beyond this
# machine: requests go to a proxy that is not there, and git may use no protocol.
_NO_PROXY = "http://127.0.0.1:1"
_NO_NETWORK = dict(NO_CLUSTER, NO_PROXY="", no_proxy="", GIT_ALLOW_PROTOCOL="none", GIT_TERMINAL_PROMPT="0",
                   **dict.fromkeys(("HTTP_PROXY", "HTTPS_PROXY", "http_proxy", "https_proxy"), _NO_PROXY))
_UNKNOWN_MEMBERS = "unknown-members"


class Manifests:
    """Reads manifests into files of the room."""

    def __init__(self, words: Words, room: Room, beside: Beside) -> None:
        self._words = words
        self._beside = beside
        self._room = room
        self._manifests: List[Manifest] = []
        self._places: List[int] = []  # where the items of the list that is written stand among them

    def fetch(self) -> None:
        """Writes what np reads of the objects of the manifests into the file `list` of the room, and says what bears on
        the answers."""
        step("reading the manifests")
        self._manifests = self._read()
        self._pass_over_ignored()
        self._check_members()
        self._tell_bypasses()
        items = [manifest.item for manifest in self._manifests]
        self._place_in_namespace(items)
        made = pods_of(items, self._words.namespace or "default")
        for label in unknown_labels(items, made):
            concerned = [workload(namespace_of(each), each["kind"], each["metadata"]["name"]) for each in label.controllers]
            self._beside.unknown_labels.append(UnknownLabel(named(label.item), label.key, concerned))
        self._write(items + made.pods)

    def name(self, number: int) -> Optional[str]:
        """The object of the list that np counts so, from 1, and where it stands."""
        manifest = self._of_item(number)
        return None if manifest is None else "%s in %s" % (named(manifest.item), manifest.document.place)

    def _of_item(self, number: int) -> Optional[Manifest]:
        """The manifest of an item of the list. Former rollouts are not in it, and behind the manifests are the pods that
        were made."""
        place = self._places[number - 1] if number <= len(self._places) else len(self._manifests)
        return self._manifests[place] if place < len(self._manifests) else None

    def tell_foreign(self, number: int) -> None:
        """Says of which kind the item of the list is that np refused as a policy that it does not read; the first has
        the number 1."""
        manifest = self._of_item(number)
        if manifest is not None:
            kind = whole_kind(manifest.item)
            say('item %d is of the kind "%s"; --ignore KIND goes on without such policies' % (number, kind))

    def _read(self) -> List[Manifest]:
        read = Reader(self._room).read(self._documents())
        for name in dict.fromkeys(document.name for document in read.others):
            say("passed over, since it is no object: %s" % name)
        manifests = [Manifest(item, document) for whole, document in read.manifests for item in _opened(whole)]
        if not manifests:
            stop(3, "there is no object in the manifests")
        return manifests

    def _documents(self) -> List[Document]:
        if self._words.overlay:
            built = _build(self._words.overlay, self._words.allows_urls)
            return list(documents.cut("the overlay %s" % self._words.overlay, built))
        return documents.read(self._words.paths, self._words.is_recursive)

    def _pass_over_ignored(self) -> None:
        """Goes on without the objects of kinds that are ignored, and says so; ends where there are others that np
        would need, since they have pods. Policies that np does not read are np's to refuse."""
        foreign = [each for each in self._manifests if is_foreign(each.item) or _is_carrier(each.item)]
        ignored = {id(each) for each in foreign if _is_ignored(each.item, self._words.ignored)}
        for kind, count in sorted(Counter(whole_kind(each.item) for each in foreign if id(each) in ignored).items()):
            say("ignored: %s (%d)" % (kind, count))
        carriers: Dict[str, List[Manifest]] = {}
        for each in foreign:
            if id(each) not in ignored and _is_carrier(each.item):
                carriers.setdefault(whole_kind(each.item), []).append(each)
        for kind, found in carriers.items():
            say("the manifests have objects that np does not read and would need: %s (%d), as %s" % (
                kind, len(found), found[0].document.place))
        if carriers:
            stop(3, "without them an answer may be wrong, so there is none; --ignore KIND goes on as if they were not there")
        self._manifests = [each for each in self._manifests if id(each) not in ignored]

    def _check_members(self) -> None:
        """Ends where an object has members that the API does not have and that would change the answer."""
        found = [(manifest, path) for manifest in self._manifests for path in unknown.members_of(manifest.item)]
        is_ignored = _UNKNOWN_MEMBERS in self._words.ignored
        for manifest, path in found:
            say("%s%s: %s has a member that the API does not have: %s" % (
                "ignored: " if is_ignored else "", manifest.document.place, named(manifest.item), path))
        if found and not is_ignored:
            stop(3, "the API server would drop it, and let through what it is to stop; --ignore unknown-members goes on without it")

    def _tell_bypasses(self) -> None:
        """Names the kinds that may stop connections, or let them through, without np knowing."""
        types = (type_of(manifest.item) for manifest in self._manifests)
        found = kinds.bypasses([kinds.Resource(each[0], "", each[1]) for each in types if each])
        if found:
            say("np does not read these kinds of the manifests, which may stop connections or let them through: "
                + ", ".join(found))

    def _place_in_namespace(self, items: List[Any]) -> None:
        """Gives the objects without a namespace that of --namespace, or says how many there are."""
        homeless = [item for item in items if is_namespaced(item) and not namespace_of(item, "")]
        if self._words.namespace:
            for item in homeless:
                item.setdefault("metadata", {})["namespace"] = self._words.namespace
        elif homeless:
            count = "1 object has" if len(homeless) == 1 else "%d objects have" % len(homeless)
            note(count + " no namespace and went to default; --namespace names another")

    def _write(self, items: List[Any]) -> None:
        step("keeping what np reads")
        with self._room.writing():
            spool = Spool(self._room, "items", Rollouts(), self._beside)
            for item in items:
                spool.add(item)
            spool.close()
            self._places = spool.places()
            with self._room.create("list") as file:
                write_list(file, spool.lines())


def _opened(item: Any) -> Iterator[Any]:
    """The object, or those of a list in its place. kubectl opens lists itself; a list in a list is opened here."""
    if isinstance(item, dict) and item.get("kind") == "List" and isinstance(item.get("items"), list):
        for inner in item["items"]:
            yield from _opened(inner)
    else:
        yield item


def _build(overlay: str, allows_urls: bool) -> bytes:
    """The objects of an overlay, as kubectl builds it."""
    if not Path(overlay).is_dir():
        stop(3, "'%s' is no folder" % overlay)
    ended = kubectl.run(["kustomize", "--", overlay], environment=NO_CLUSTER if allows_urls else _NO_NETWORK)
    if ended.status:
        is_remote = re.search(rb"://|\bgit\b", ended.said) and not allows_urls
        hint = "; nothing is fetched for it without --allow-urls" if is_remote else ""
        stop(3, "the overlay cannot be built, so there is no answer" + hint, ended.said)
    return ended.out


def _is_carrier(item: Any) -> bool:
    return kinds.is_carrier(str(item.get("apiVersion")), str(item.get("kind")), item.get("spec"))


def _is_ignored(item: Any, ignored: List[str]) -> bool:
    return kinds.is_ignored(ignored, str(item.get("kind")), kinds.group_of(str(item.get("apiVersion"))))


