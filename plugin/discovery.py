"""Asks the cluster which kinds it has, and ends where it has policies that np does not read."""
from __future__ import annotations

import json
from typing import Any, Dict, List, NoReturn, Optional

from plugin import kinds, nearest
from plugin.children import Ended
from plugin.kinds import Kind, Resource
from plugin.kubectl import Kubectl, ask_all
from plugin.said import note, relay, say, step, stop


def find_kinds(kubectl: Kubectl, ignored: List[str]) -> List[Kind]:
    """The kinds of the cluster that np reads. Says which it lacks and what else bears on the answers; ends where
    there are policies that np does not read and that are not ignored."""
    step("asking the cluster which kinds it has")
    versions = _versions(kubectl)
    resources = _resources(kubectl, versions, ignored)
    present = _present(resources)
    _tell_ignored_in_vain(versions, resources, ignored)
    bypasses = kinds.bypasses(resources)
    if bypasses:
        say("np does not read these kinds of the cluster, which may stop connections or let them through: " + ", ".join(bypasses))
    _check_foreign(kubectl, kinds.foreign(resources), kinds.carriers(resources), ignored)
    return present


def _answer(ended: Ended, kind: str) -> Optional[Dict[str, Any]]:
    """The answer of the API where it is of the kind, as what a proxy answers in the place of the cluster is not.

    Names are all that is taken from it, so a byte in it that has no place in JSON takes no kind away.
    """
    if ended.status:
        return None
    try:
        answer = json.loads(ended.out.decode("utf-8", "replace").replace("\0", ""), strict=False)
    except (ValueError, RecursionError):
        return None
    return answer if isinstance(answer, dict) and answer.get("kind") == kind else None


def _no_answer(path: str, ended: Ended) -> NoReturn:
    """Ends where the cluster does not answer at the path, with what kubectl said."""
    stop(3, "the cluster does not say which kinds it has (kubectl get --raw %s)" % path, ended.said)


def _versions(kubectl: Kubectl) -> List[str]:
    """The versions of all groups, a preferred one before the others of its group."""
    ended = kubectl.raw("/apis")
    answer = _answer(ended, "APIGroupList")
    if answer is None:
        _no_answer("/apis", ended)
    found = ["v1"]
    for group in _objects(answer, "groups"):
        preferred = group.get("preferredVersion")
        for version in [preferred if isinstance(preferred, dict) else {}, *_objects(group, "versions")]:
            if isinstance(version.get("groupVersion"), str):
                found.append(version["groupVersion"])
    if kinds.POLICY.api_version not in found:
        stop(3, "the cluster does not name %s among its groups, so its network policies cannot be had" % kinds.POLICY.api_version)
    return list(dict.fromkeys(found))


def _objects(whole: Any, name: str) -> List[Dict[str, Any]]:
    values = whole.get(name)
    return [value for value in values if isinstance(value, dict)] if isinstance(values, list) else []


def _resources(kubectl: Kubectl, versions: List[str], ignored: List[str]) -> List[Resource]:
    """The resources of the cluster that can be listed."""
    found = []
    answers = ask_all(kubectl.raw, [kinds.path_of(version) for version in versions])
    for version, ended in zip(versions, answers):
        answer = _answer(ended, "APIResourceList")
        if answer is None:
            _pass_over(version, ended, ignored)
        else:
            found += [Resource(version, resource["name"], str(resource.get("kind") or "-"))
                      for resource in _objects(answer, "resources") if _is_listed(resource)]
    return found


def _is_listed(resource: Dict[str, Any]) -> bool:
    """Whether the resource can be listed. Where no verbs are told it counts as one that can."""
    name, verbs = resource.get("name"), resource.get("verbs")
    return isinstance(name, str) and bool(name) and "/" not in name and (not isinstance(verbs, list) or "list" in verbs)


def _pass_over(version: str, ended: Ended, ignored: List[str]) -> None:
    """Goes on without the kinds of a version that gave no answer, where that is allowed, and else ends."""
    if kinds.is_metrics(version):
        return
    if version not in kinds.VERSIONS:
        if kinds.is_ignored(ignored, None, kinds.group_of(version)):
            say("ignored: %s, which does not answer" % version)
            return
        say("%s may have policies that np does not read; --ignore %s goes on without it" % (version, kinds.group_of(version)))
    _no_answer(kinds.path_of(version), ended)


def _present(resources: List[Resource]) -> List[Kind]:
    """The kinds that np reads and the cluster has; says which it has not."""
    has = {(resource.api_version, resource.name) for resource in resources}
    for kind in (kinds.POD, kinds.POLICY):
        if (kind.api_version, kind.resource) not in has:
            stop(3, "the cluster does not name %s among its kinds" % kind.resource)
    for kind in kinds.READ:
        if (kind.api_version, kind.resource) not in has:
            note("left out, since the cluster has no such kind: " + kind.whole_resource)
    return [kind for kind in kinds.READ if (kind.api_version, kind.resource) in has]


def _tell_ignored_in_vain(versions: List[str], resources: List[Resource], ignored: List[str]) -> None:
    """Names what --ignore names and the cluster does not have, since it may be misspelt."""
    groups = [kinds.group_of(version) for version in versions]
    names = dict.fromkeys([each.kind for each in resources] + [each.whole_kind for each in resources] + groups)
    known = {name.lower() for name in names}
    for name in ignored:
        if name.lower() not in known:
            near = nearest.nearest(name, names)[:1] if len(name) > 2 else []
            note("--ignore %s names no kind and no group of the cluster%s" % (name, "; the nearest is %s" % near[0] if near else ""))


def _check_foreign(kubectl: Kubectl, policies: List[Resource], carriers: List[Resource], ignored: List[str]) -> None:
    """Ends where the cluster has policies, or objects with pods, that np does not read, and does not go without them. Says
    which it goes without."""
    foreign = [(each, "policies that np does not read") for each in policies]
    foreign += [(each, "objects that np does not read and would need") for each in carriers]
    if not foreign:
        return
    step("counting the objects that np does not read")
    answers = ask_all(kubectl.names, [resource.argument for resource, _ in foreign])
    judged = [_is_no_reason(*each, ended, ignored) for each, ended in zip(foreign, answers)]
    if not all(judged):
        stop(3, "without them an answer may be wrong, so there is none; --ignore KIND goes on as if they were not there")


def _is_no_reason(resource: Resource, what: str, ended: Ended, ignored: List[str]) -> bool:
    """Whether the objects of the kind, which kubectl named, are no reason to end; `what` says what they are."""
    is_ignored = kinds.is_ignored(ignored, resource.kind, resource.group)
    kind = resource.whole_kind
    if ended.status and is_ignored:
        say("ignored: %s (not counted, since the cluster does not list them)" % kind)
    elif ended.status:
        relay(ended.said)
        say("the cluster does not list the objects of %s, %s" % (kind, what))
        return False
    else:
        count = kinds.count_objects(resource.group, ended.out)
        if count and not is_ignored:
            say("the cluster has %s: %s (%d)" % (what, kind, count))
            return False
        if count:
            say("ignored: %s (%d)" % (kind, count))
    return True
