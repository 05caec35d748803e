"""Validates logs of SARIF by the JSON schema of OASIS, for tools/evidence/try_lint.py."""
import copy
import hashlib
import json
import os
import sys

# The title of the schema, and the sum of the file that GCC 15.3 has.
TITLE = "Static Analysis Results Format (SARIF) Version 2.1.0 JSON Schema"
SUM = "c3b4bb2d6093897483348925aaa73af03b3e3f4bd4ca38cef26dcb4212a2682e"
HOW = "try_lint.py --help says how to get it"


def validator_of(path):
    """The validator of a schema's file. It ends the script if the file is not there or is another one, or nothing validates."""
    if not os.path.isfile(path):
        sys.exit(f"no schema: {path} ({HOW})")
    with open(path, "rb") as file:
        raw = file.read()
    try:
        schema = json.loads(raw)
    except ValueError:
        schema = {}
    if schema.get("title") != TITLE:
        sys.exit(f"not the schema of SARIF 2.1.0: {path} ({HOW})")
    try:
        import jsonschema
    except ImportError:
        sys.exit("no jsonschema in this Python (Debian: apt-get install python3-jsonschema; call try_lint.py by /usr/bin/python3)")
    found = hashlib.sha256(raw).hexdigest()
    print(f"schema {found}" + ("" if found == SUM else f" (not the file of GCC 15.3, whose sum is {SUM})"))
    jsonschema.Draft4Validator.check_schema(schema)
    validator = jsonschema.Draft4Validator(schema, format_checker=jsonschema.FormatChecker())
    if not checks_uris(validator):
        print("the form of URIs is not validated: no rfc3987 in this Python (Debian: python3-rfc3987)")
    return validator


def checks_uris(validator):
    """Whether a validator knows what a URI is."""
    return "uri-reference" in validator.format_checker.checkers


def fault_of(validator, log):
    """What the schema refuses in a log first; empty for nothing."""
    faults = sorted(validator.iter_errors(log), key=lambda fault: list(map(str, fault.absolute_path)))
    return f"{'/'.join(map(str, faults[0].absolute_path))}: {faults[0].message[:200]}" if faults else ""


def drop(name):
    return lambda thing: thing.pop(name)


def put(name, value):
    return lambda thing: thing.update({name: value})


def whole(log):
    return log


def a_run(log):
    return log["runs"][0]


def a_result(log):
    return a_run(log)["results"][0]


def a_place(log):
    return a_result(log)["locations"][0]["physicalLocation"]


# Changes of a log, each of which the schema has to refuse: where, and what.
WRONG = {
    "no version": (whole, drop("version")),
    "another version": (whole, put("version", "2.0.0")),
    "no tool": (a_run, drop("tool")),
    "a driver without a name": (lambda log: a_run(log)["tool"]["driver"], drop("name")),
    "a rule without its name": (lambda log: a_run(log)["tool"]["driver"]["rules"][0], drop("id")),
    "a result without its text": (a_result, drop("message")),
    "a level that is none": (a_result, put("level", "remark")),
    "a count that is a text": (a_result, put("occurrenceCount", "1")),
    "a field that is none": (a_result, put("place", 1)),
    "line 0": (lambda log: a_place(log)["region"], put("startLine", 0)),
    "a name that is no text": (lambda log: a_place(log)["artifactLocation"], put("uri", 1)),
    "a name with a space": (lambda log: a_place(log)["artifactLocation"], put("uri", "a b.sfc")),
}


def changed(validator, log):
    """Each wrong change that the validator has to refuse, and a log with it."""
    for name, (place, change) in WRONG.items():
        if name == "a name with a space" and not checks_uris(validator):
            continue
        wrong = copy.deepcopy(log)
        change(place(wrong))
        yield name, wrong
