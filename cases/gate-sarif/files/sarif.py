"""Whether a report has what the schema of SARIF 2.1.0 requires, and what code scanning needs beside it."""
import copy
import json
import sys
from urllib.parse import urlsplit

# The members that the schema requires of each object, and those that it knows of which the gate writes some.
REQUIRED = {"log": ["version", "runs"], "run": ["tool"], "tool": ["driver"], "driver": ["name"], "rule": ["id"], "result": ["message"],
            "message": ["text"]}
KNOWN = {"log": ["$schema", "version", "runs"], "run": ["tool", "columnKind", "results"], "tool": ["driver"],
         "driver": ["name", "semanticVersion", "rules"], "rule": ["id", "shortDescription", "help"],
         "result": ["ruleId", "level", "message", "locations"], "message": ["text"], "location": ["physicalLocation"],
         "place": ["artifactLocation", "region"], "file": ["uri"], "region": ["startLine"]}
NEEDED = {"result": ["ruleId", "level", "locations"], "location": ["physicalLocation"], "place": ["artifactLocation", "region"],
          "file": ["uri"], "region": ["startLine"], "driver": ["rules"], "run": ["results"]}


def objects(log):
    """All objects of a report, each with what it is."""
    yield "log", log
    for run in log.get("runs", []):
        yield "run", run
        tool = run.get("tool", {})
        driver = tool.get("driver", {})
        yield from [("tool", tool), ("driver", driver)]
        for rule in driver.get("rules", []):
            yield "rule", rule
            yield from (("message", rule[name]) for name in ("shortDescription", "help") if name in rule)
        for result in run.get("results", []):
            yield from [("result", result), ("message", result.get("message", {}))]
            for location in result.get("locations", []):
                place = location.get("physicalLocation", {})
                yield from [("location", location), ("place", place), ("file", place.get("artifactLocation", {})),
                            ("region", place.get("region", {}))]


def faults(log):
    """What is wrong with a report."""
    for kind, value in objects(log):
        for name in REQUIRED.get(kind, []) + NEEDED.get(kind, []):
            if name not in value:
                yield "%s lacks %s" % (kind, name)
        yield from ("%s has %s" % (kind, name) for name in value if name not in KNOWN[kind])
        if kind == "log" and value.get("version") != "2.1.0":
            yield "version"
        if kind == "result" and value.get("level") not in ("none", "note", "warning", "error"):
            yield "level"
        if kind == "result" and not value.get("locations"):
            yield "no location"
        if kind == "region" and not (type(value.get("startLine")) is int and value["startLine"] >= 1):
            yield "startLine"
        if kind == "file" and not (isinstance(value.get("uri"), str) and value["uri"] and " " not in value["uri"]
                                   and urlsplit(value["uri"]).scheme in ("", "file")):
            yield "uri"
        if kind == "message" and not (isinstance(value.get("text"), str) and value["text"]):
            yield "text"
    for run in log.get("runs", []):
        known = [rule.get("id") for rule in run.get("tool", {}).get("driver", {}).get("rules", [])]
        yield from ("no rule %s" % result.get("ruleId") for result in run.get("results", []) if result.get("ruleId") not in known)


def spoilt(log):
    """Copies of the report that lack one required member each."""
    for number, (kind, value) in enumerate(objects(log)):
        for name in REQUIRED.get(kind, []) + NEEDED.get(kind, []):
            other = copy.deepcopy(log)
            del list(objects(other))[number][1][name]
            yield "%s without %s" % (kind, name), other


report = json.load(open(sys.argv[1]))
for fault in faults(report):
    print(fault)
missed = {name for name, other in spoilt(report) if not list(faults(other))}
print("each missing member is noticed" if not missed else sorted(missed))
for result in report["runs"][0]["results"]:
    place = result["locations"][0]["physicalLocation"]
    print("%s %s %s:%d %s" % (result["level"], result["ruleId"], place["artifactLocation"]["uri"], place["region"]["startLine"],
                              result["message"]["text"]))
