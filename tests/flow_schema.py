#!/usr/bin/env python3
"""Whether docs/flow.schema.json says of the cases in crates/flow_cases what the rules say, as far as a schema can.

It accepts each flow that is accepted, and the flows below examples/, and refuses each flow that breaks one of the
rules that a schema can tell. It needs the module jsonschema; without it all is left out.
"""

import argparse
import json
import pathlib
import re
import sys

ROOT = pathlib.Path(__file__).resolve().parent.parent
# The rules that a schema tells: a missing field, an unknown type, a bad value, an unknown field, a bad number.
TOLD = {2, 3, 7, 11, 12}
# A whole number that is written with a sign, a point or an exponent is the same number to a schema.
WRITTEN = re.compile(r'"(tasks|penalty|expiration|objects|bytes|swap)": (-0\b|[0-9]+\.0\b|[0-9]+[eE][0-9]+)')

# The name of an own property that has too many bytes, but not too many characters, is of a right length to a schema.
NAME = re.compile(r'"([^"\\]{128,255})": "')
# Which of two numbers is the greater is nothing to a schema.
ENTRIES = re.compile(r'"Minimum Number of Entries": "([0-9]+)", "Maximum Number of Entries": "([0-9]+)"')


def is_untold(text):
    if any(len(name.encode()) > 255 for name in NAME.findall(text)):
        return True
    return WRITTEN.search(text) or any(int(least) > int(most) for least, most in ENTRIES.findall(text))


def text_of(case):
    if "bytes" in case:
        return bytes.fromhex(case["bytes"])
    flow = case["flow"]
    if isinstance(flow, str):
        return flow.encode()
    text = ""
    for part in flow:
        text += part if isinstance(part, str) else part[0] * part[1] * (part[2] if len(part) > 2 else 1)
    return text.encode()


def cases():
    folder = ROOT / "crates" / "flow_cases"
    lines = (folder / "stdin").read_text(encoding="utf-8").splitlines()
    wanted = (folder / "stdout").read_text(encoding="utf-8").splitlines()
    for number, (line, want) in enumerate(zip(lines, wanted, strict=True), 1):
        rule = re.match(r"rule (\d+) at ", want)
        yield f"case {number}", text_of(json.loads(line)), int(rule.group(1)) if rule else None


def examples():
    for path in sorted((ROOT / "examples").glob("*/flow.json")):
        yield str(path.relative_to(ROOT)), path.read_bytes(), None


def main():
    parser = argparse.ArgumentParser(description=__doc__)
    parser.add_argument("--program", help="not used: the cases hold what the program says")
    parser.parse_args()
    try:
        import jsonschema
    except ImportError:
        print("flow_schema.py is left out: the module jsonschema is missing")
        print("0 passed, 0 failed")
        return 0
    schema = json.loads((ROOT / "docs" / "flow.schema.json").read_text(encoding="utf-8"))
    jsonschema.Draft7Validator.check_schema(schema)
    validator = jsonschema.Draft7Validator(schema)
    passed = failed = 0
    for name, text, rule in [*cases(), *examples()]:
        if rule is not None and (rule not in TOLD or is_untold(text.decode())):
            continue
        if validator.is_valid(json.loads(text)) == (rule is None):
            passed += 1
        else:
            failed += 1
            print(f"FAILED  {name}: rule {rule}, {text[:200]!r}")
    print(f"{passed} passed, {failed} failed")
    return 1 if failed else 0


if __name__ == "__main__":
    sys.exit(main())
