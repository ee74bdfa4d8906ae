"""What the bytes of inputs are read as: items, who owns whom among them, and the estate (np_items, np_owners, np_reading)."""
from typing import Dict, List, Optional, Sequence, Tuple, Union

from .model import (ADMIN, BASELINE, NAME_KEY, NET, Estate, Ingress, Labels, Namespace, ObjectName, Pod, PodEnd, PodSource, Policy,
                    Service, peers_of)
from .objects import OBJECTS, Object
from .policies import POLICIES
from .values import Data, Flaw, Shape, json_of, listed, refuse_if, type_meta

MOST_ITEMS = 20000
Item = Union[Object, Policy]
READERS: Dict[Tuple[str, str], Shape[Item]] = {**OBJECTS, **POLICIES}
# The listed controllers by their names.
Controllers = Dict[ObjectName, PodSource]


class Refused(Exception):
    """The inputs, or the words or statements on what they say, are refused; its text is the line behind `error: `."""


# ---- items

def values_in(number: int, data: bytes) -> List[Data]:
    """What the input of that number lists: a `v1` List its items, and another object itself, unless it is another list."""
    try:
        value = json_of(data)
        version, kind = type_meta(value)
        is_list = (version, kind) == ("v1", "List")
        refuse_if(kind.endswith("List") and not is_list, "NotAList")
        return list(listed("items", lambda item: item, value)) if is_list else [value]
    except ValueError:
        raise Refused("input %d: NotJson" % number) from None
    except Flaw:
        raise Refused("input %d: NotAList" % number) from None


def item_of(number: int, value: Data) -> Optional[Item]:
    """The item of that number, if it is of a kind that is read."""
    try:
        version, kind = type_meta(value)
        if kind.endswith("List"):
            raise Refused("item %d: NestedList" % number)
        shape = READERS.get((version, kind))
        refuse_if(shape is None and kind.endswith("NetworkPolicy"), "ForeignPolicy", "kind")
        return None if shape is None else shape(value)
    except Flaw as flaw:
        raise Refused("item %d: %s" % (number, flaw)) from None


def items_of(texts: Sequence[bytes]) -> List[Optional[Item]]:
    """The items that all inputs list, numbered from 1 over all of them."""
    found = [value for number, data in enumerate(texts, 1) for value in values_in(number, data)]
    if len(found) > MOST_ITEMS:
        raise Refused("TooManyItems %d" % len(found))
    return [item_of(number, value) for number, value in enumerate(found, 1)]


# ---- rules on all items

def must_have_names_apart(items: List[Optional[Item]]) -> None:
    """No two items have one name."""
    places: Dict[ObjectName, int] = {}
    for place, item in enumerate(items, 1):
        if item is not None and places.setdefault(item.name, place) < place:
            raise Refused("items %d and %d: Duplicate" % (places[item.name], place))


def must_have_priorities_apart(policies: List[Policy]) -> None:
    """No two admin policies have one priority."""
    ranks = sorted((policy.priority, policy.name.name) for policy in policies)
    for one, other in zip(ranks, ranks[1:]):
        if one[0] == other[0]:
            raise Refused("EqualPriority %d: %s, %s" % (one[0], one[1], other[1]))


def must_have_no_cycle(controllers: Controllers) -> None:
    """No listed controller stands in its own chain of owners."""
    for name, controller in controllers.items():
        if name in owners_of(controller, controllers):
            raise Refused("OwnerCycle " + name.full())


# ---- owners

def owners_of(item: PodSource, controllers: Controllers) -> Controllers:
    """The listed controllers over an item, the nearest first, up to the first that comes again."""
    found: Controllers = {}
    owner = item.owner
    while owner is not None and owner in controllers and owner not in found:
        found[owner] = controllers[owner]
        owner = controllers[owner].owner
    return found


def top_owner(item: PodSource, controllers: Controllers) -> ObjectName:
    """The last owner that the chain of an item reaches, listed or not, or it itself where it names none."""
    top = [item, *owners_of(item, controllers).values()][-1]
    return top.owner or top.name


# ---- the estate

def sources_of(items: List[PodSource], controllers: Controllers) -> List[PodSource]:
    """The pods, and the controllers that make pods of which none is listed, and that no listed controller owns."""
    owning = {owner for item in items if item.name.kind == "Pod" for owner in owners_of(item, controllers)}
    return [item for item in items if item.name.kind == "Pod"
            or (item.wanted and item.owner not in controllers and item.name not in owning)]


def pods_of(sources: List[PodSource], controllers: Controllers, namespaces: Dict[str, Labels]) -> List[Pod]:
    """The pods that these items give. The labels of a namespace always say its name, whatever its object says of that."""
    pods: List[Pod] = []
    ends: Dict[object, PodEnd] = {}
    for item in sources:
        space = item.name.namespace
        looks = space, tuple(item.labels.items()), item.ports, item.addresses
        if looks not in ends:
            own = namespaces.get(space, {})
            ends[looks] = PodEnd(space, {**own, NAME_KEY: space}, item.labels, item.ports, item.addresses)
        pods.append(Pod(item.name, top_owner(item, controllers), ends[looks]))
    return pods


def estate_of_items(items: List[Optional[Item]], policies: Dict[str, List[Policy]], controllers: Controllers) -> Estate:
    """The estate of these items, of which none are at odds."""
    sources = sources_of([item for item in items if isinstance(item, PodSource)], controllers)
    namespaces = {item.name.name: item.labels for item in items if isinstance(item, Namespace)}
    pods = pods_of([item for item in sources if not item.host_network and not item.finished], controllers, namespaces)
    has_networks = any(peer.cidrs for peer in peers_of(policies[ADMIN] + policies[BASELINE]))
    return Estate(
        pods=pods,
        admin=sorted(policies[ADMIN], key=lambda policy: policy.priority),
        net=sorted(policies[NET], key=lambda policy: policy.name),
        base=policies[BASELINE],
        services={item.name: item for item in items if isinstance(item, Service)},
        ingresses=[(number, item) for number, item in enumerate(items, 1) if isinstance(item, Ingress)],
        notes={
            "host network pods left out": sum(item.host_network for item in sources),
            "finished pods left out": sum(item.finished and not item.host_network for item in sources),
            "objects of other kinds skipped": items.count(None),
            "pods without an address, matched by no networks peer": sum(has_networks and not pod.end.addresses for pod in pods),
        },
    )


def estate_of(texts: Sequence[bytes]) -> Estate:
    """The estate of inputs, or the first refusal: of the items, of two of one name, of two of one priority, of a cycle."""
    items = items_of(texts)
    must_have_names_apart(items)
    policies: Dict[str, List[Policy]] = {ADMIN: [], NET: [], BASELINE: []}
    for item in items:
        if isinstance(item, Policy):
            policies[item.name.kind].append(item)
    must_have_priorities_apart(policies[ADMIN])
    controllers = {item.name: item for item in items if isinstance(item, PodSource) and item.name.kind != "Pod"}
    must_have_no_cycle(controllers)
    return estate_of_items(items, policies, controllers)
