"""What the schema of SARIF 2.1.0 requires of a log as cfglint writes it."""
import json
import re

LEVELS = ("none", "note", "warning", "error")
COLUMN_KINDS = ("utf16CodeUnits", "unicodeCodePoints")
# a relative reference of RFC 3986 that is a path
PATH = re.compile(r"(?:[\w.~/-]|%[0-9A-F]{2})*", re.ASCII)


def faults(text):
    """What is wrong with a log, line by line: members that are missing, or whose values are none that they may have."""
    wrong = []

    def member(of, name, kind, where):
        it = of.get(name) if isinstance(of, dict) else None
        if type(it) is not kind:                       # a bool is no number
            wrong.append(f"{where}: no {name}")
            return kind()
        return it

    def place(location, where):
        physical = member(location, "physicalLocation", dict, where)
        uri = member(member(physical, "artifactLocation", dict, where), "uri", str, where)
        if not PATH.fullmatch(uri):
            wrong.append(f"{where}: {uri!r} is no URI")
        if "region" in physical:
            numbers = [member(physical["region"], it, int, where) for it in ("startLine", "startColumn", "endLine", "endColumn")]
            if min(numbers) < 1 or numbers[2:] < numbers[:2]:
                wrong.append(f"{where}: a region of {numbers}")

    log = json.loads(text)
    if member(log, "version", str, "log") != "2.1.0":
        wrong.append("log: another version")
    for run in member(log, "runs", list, "log"):
        driver = member(member(run, "tool", dict, "run"), "driver", dict, "run")
        rules = [member(rule, "id", str, "rule") for rule in member(driver, "rules", list, "driver")]
        if not member(driver, "name", str, "driver") or len(set(rules)) < len(rules):
            wrong.append("driver: no name, or a rule twice")
        if run.get("columnKind") not in COLUMN_KINDS:
            wrong.append("run: another columnKind")
        for index, result in enumerate(member(run, "results", list, "run")):
            where = f"result {index}"
            member(member(result, "message", dict, where), "text", str, where)
            if member(result, "level", str, where) not in LEVELS or member(result, "ruleId", str, where) not in rules:
                wrong.append(f"{where}: another level or rule")
            for name in ("locations", "relatedLocations"):
                for location in member(result, name, list, where):
                    place(location, where)
    return wrong
