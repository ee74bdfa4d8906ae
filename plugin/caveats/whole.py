"""All caveats of a list."""
from __future__ import annotations

import gc
from contextlib import contextmanager
from functools import cached_property
from pathlib import Path
from typing import TYPE_CHECKING, Iterator, List

from plugin.caveats import objects, selecting, unlisted
from plugin.caveats.policies import Policy, policies

if TYPE_CHECKING:
    from plugin.caveats.addresses import Addresses
    from plugin.caveats.beside import Beside
    from plugin.caveats.caveat import Caveat


@contextmanager
def _without_collector() -> Iterator[None]:
    """Keeps Python from looking for cycles within the block: nothing that is made here is in one, and it would take a
    third of the time."""
    was_enabled = gc.isenabled()
    gc.disable()
    try:
        yield
    finally:
        if was_enabled:
            gc.enable()


class Caveats:
    """The caveats of the list in a file, which is read when they are needed first.

    np is to have taken the list: of one that it refuses this says anything.
    """

    def __init__(self, path: Path, beside: Beside) -> None:
        self.path = path
        self._beside = beside

    @cached_property
    def listed(self) -> objects.Listed:
        """The objects of the list."""
        with _without_collector():
            return objects.read(self.path, self._beside)

    @cached_property
    def addresses(self) -> Addresses:
        """The addresses of the pods."""
        from plugin.caveats.addresses import Addresses
        return Addresses(self.listed)

    @cached_property
    def all(self) -> List[Caveat]:
        """The caveats, by the objects that they are about."""
        with _without_collector():
            return sorted(dict.fromkeys(self._found()), key=lambda caveat: (caveat.object, caveat.key, caveat.detail))

    def _found(self) -> Iterator[Caveat]:
        found = policies(self.listed)
        yield from selecting.find(self.listed, found)
        yield from unlisted.find(self.listed, found, self._beside.unknown_labels)
        yield from self._of_rare_objects(found)

    def _of_rare_objects(self, found: List[Policy]) -> Iterator[Caveat]:
        """The caveats of what many lists do not have. What finds them is not loaded where there is none."""
        rules = [rule for policy in found for rule in policy.rules]
        if any(entry.name for rule in rules for entry in rule.entries):
            from plugin.caveats.port_names import PortNames
            yield from PortNames(self.listed).find(found)
        if any(peer.block is not None for rule in rules for peer in rule.peers):
            yield from self.addresses.find(found)
        if self.listed.of_type("networking.k8s.io/v1", "Ingress"):
            from plugin.caveats.ingresses import Ingresses
            yield from Ingresses(self.listed, found).find()
