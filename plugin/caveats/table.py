"""The kinds of caveats, each once. docs/use/CAVEATS.md has a part for each, by the same key."""
from __future__ import annotations

from typing import Dict, NamedTuple


class Kind(NamedTuple):
    """A kind: its key, which is its anchor in CAVEATS.md, the line about one and about several, and a sentence of
    help."""

    key: str
    one: str
    many: str
    help: str

    def line(self, count: int) -> str:
        """The line about so many."""
        return self.one if count == 1 else self.many % count


_KINDS = (
    Kind("statement-block-holds-pods",
         "1 statement is about a block that holds addresses of listed pods, which are no ends of it",
         "%d statements are about blocks that hold addresses of listed pods, which are no ends of them",
         "Write namespaces or workloads beside the block: addresses are ends outside the cluster."),
    Kind("ipblock-holds-pods",
         "1 ipBlock holds addresses of listed pods, and most network plugins let it match these pods",
         "%d ipBlocks hold addresses of listed pods, and most network plugins let them match these pods",
         "Name pods by selectors, and leave their addresses out of the block with except."),
    Kind("ipblock-holds-private",
         "1 ipBlock holds private addresses, and most network plugins let it match pods that have such an address",
         "%d ipBlocks hold private addresses, and most network plugins let them match pods that have such an address",
         "Leave the addresses of the cluster's pods out of the block with except."),
    Kind("sidecar-port",
         "1 port name stands only at a container that restarts among the initContainers, where np does not look",
         "%d port names stand only at containers that restart among the initContainers, where np does not look",
         "Name the port by its number."),
    Kind("label-unknown",
         "1 selector asks for a label that only the cluster gives a value",
         "%d selectors ask for labels that only the cluster gives values",
         "Select by a label of the template, or ask about the cluster."),
    Kind("scaled-to-zero",
         "1 workload is scaled to 0, so it is in no answer",
         "%d workloads are scaled to 0, so they are in no answer",
         "Ask with the replicas that it will have."),
    Kind("namespace-without-object",
         "1 namespace has pods and no Namespace object, so no label of it is known but its name",
         "%d namespaces have pods and no Namespace object, so no labels of theirs are known but the name",
         "Add the Namespace object with its labels to the objects."),
    Kind("backend-headless",
         "1 backend of an Ingress is a headless Service",
         "%d backends of Ingresses are headless Services",
         "Give the Ingress a Service with an address of the cluster."),
    Kind("backend-without-pods",
         "1 backend of an Ingress is a Service that selects no listed pod",
         "%d backends of Ingresses are Services that select no listed pod",
         "Compare the selector of the Service with the labels of the pods."),
    Kind("backend-port-name",
         "1 backend of an Ingress leads to a port name that no pod behind it has",
         "%d backends of Ingresses lead to port names that no pod behind them has",
         "Compare the targetPort of the Service with the names of the containers' ports."),
    Kind("controller-not-named",
         "1 workload behind an Ingress lets in named peers alone, and who the Ingress controller is was not said",
         "%d workloads behind Ingresses let in named peers alone, and who the Ingress controller is was not said",
         "Name the controller: list --controller, or a statement about its workload in the place of ingress-controller."),
    Kind("policy-selects-nothing",
         "1 policy selects no listed pod",
         "%d policies select no listed pod",
         "Compare its selector and its namespace with the labels of the pods."),
    Kind("peer-meets-nothing",
         "1 peer of a policy meets no listed pod",
         "%d peers of policies meet no listed pod",
         "Compare its selectors with the labels of pods and namespaces, or add the objects that are missing."),
    Kind("port-meets-nothing",
         "1 port name of a policy stands at no listed pod that the rule is about",
         "%d port names of policies stand at no listed pod that the rule is about",
         "Compare the name and its protocol with the ports of the containers, or name the port by its number."),
)
KINDS: Dict[str, Kind] = {kind.key: kind for kind in _KINDS}
