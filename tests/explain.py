#!/usr/bin/env python3
"""What `flow explain` says of every text of crates/flow_cases and of mistakes that people make, and what the launcher
says after runs that end with a status past 1.

It needs the built program for the latter alone."""

import json
import re
import subprocess
import sys

import printed
from support import (DONE, INBOX, OUTBOX, REFUSED, ROOT, SOURCE, USAGE, Report, find_program, need, options,
                     work_folder, write_files)

sys.path.insert(0, str(ROOT / "tools"))

import flow_rules  # noqa: E402
import flow_tables  # noqa: E402
import flow_warnings  # noqa: E402
from flow_schema import text_of  # noqa: E402

FIRST = (ROOT / "examples" / "first" / "flow.json").read_text(encoding="utf-8")

# A flow with most of what a flow may have, in which the mistakes are made.
WIDE = json.dumps({
    "processors": [
        {"id": "get", "type": "GetFile", "properties": {"File Filter": ".*\\.txt"}},
        {"id": "route", "type": "RouteOnAttribute", "properties": {"big": "${filename:startsWith('big')}"}},
        {"id": "swap", "type": "ReplaceText", "properties": {"Search Value": "(a+)b", "Replacement Value": "${1}c"}},
        {"id": "join", "type": "MergeContent", "terminated": ["original", "failure"],
         "properties": {"Minimum Number of Entries": "1", "Maximum Number of Entries": "9"}},
        {"id": "put", "type": "PutFile", "tasks": 1, "penalty": 10,
         "properties": {"Conflict Resolution Strategy": "replace"}, "terminated": ["success", "failure"]}],
    "connections": [
        {"id": "new", "from": "get", "to": "route", "relationships": ["success"], "prioritizers": ["PriorityAttribute"]},
        {"id": "big", "from": "route", "to": "swap", "relationships": ["big"], "objects": 5, "bytes": 100},
        {"id": "small", "from": "route", "to": "join", "relationships": ["unmatched"], "objects": 3},
        {"id": "swapped", "from": "swap", "to": "put", "relationships": ["success", "failure"]},
        {"id": "joined", "from": "join", "to": "put", "relationships": ["merged"], "expiration": 0}]}, indent=1)

# A text of it, what stands in its place, and what has to be said of that: with the rule and words of the line.
MISTAKES = [
    ('"processors"', '"procesors"', 2, "`processors` is missing"),
    ('"processors"', '"Processors"', 2, "`processors` is missing"),
    ('"connections"', '"conections"', 2, "`connections` is missing"),
    ('"GetFile"', '"Getfile"', 3, "there is no type `Getfile` (`GetFile`?)"),
    ('"PutFile"', '"PutFiles"', 3, "(`PutFile`?)"),
    ('"MergeContent"', '"MergeRecord"', 3, "there is no type `MergeRecord`"),
    ('"id": "route"', '"id": "get"', 4, 'the id "get" stands twice'),
    ('"id": "small"', '"id": "new"', 4, 'the id "new" stands twice'),
    ('"to": "swap"', '"to": "swop"', 5, "no processor has the id `swop` (`swap`?)"),
    ('"from": "swap"', '"from": "Swap"', 5, "no processor has the id `Swap` (`swap`?)"),
    ('"to": "join"', '"to": "get"', 5, "is a GetFile, which takes no files of the flow"),
    ('"original",', "", 6, "relationship `original` is neither terminated nor connected"),
    ('"original",', '"original", "merged",', 6, "relationship `merged` is both terminated and connected"),
    ('"unmatched"', '"unmached"', 6, "has no relationship `unmached` (`unmatched`?)"),
    ('"merged"', '"Merged"', 6, "has no relationship `Merged` (`merged`?)"),
    ('"big"\n   ],', '"big",\n    "big"\n   ],', 6, "`big` stands twice in `relationships`"),
    ('"big": "$', '"large": "$', 6, "relationship `large` is neither terminated nor connected"),
    ('"id": "joined"', '"id": "joined it"', 7, "letters, digits, `_`, `.` and `-`"),
    ('"replace"', '"overwrite"', 7, "may be `replace`, `ignore`, `fail`"),
    ('"replace"', '"Replace"', 7, "(`replace`?)"),
    ('"File Filter"', '"Input Directory"', 7, "`Input Directory` is no property of GetFile; it has `File Filter`"),
    ('"File Filter"', '"FileFilter"', 7, "(`File Filter`?)"),
    ('"Search Value"', '"Search value"', 2, "the property `Search Value` is missing"),
    ('"PriorityAttribute"', '"PriorityAttributePrioritizer"', 7, "(`PriorityAttribute`?)"),
    ('"Minimum Number of Entries": "1"', '"Minimum Number of Entries": 1', 7, "has to be a text, in quotes"),
    ('"objects": 5', '"objects": "5"', 7, "`objects` has to be a number, without quotes"),
    ('"objects": 5', '"objects": -5', 12, "`objects` is -5"),
    ('"bytes": 100', '"bytes": 1e2', 12, "`bytes` is 1e2"),
    ('"bytes": 100', '"bytes": 1.5', 12, "`bytes` is 1.5"),
    ('"bytes": 100', '"bytes": "1 GB"', 7, "`bytes` has to be a number, without quotes"),
    ('"tasks": 1', '"tasks": 0', 12, "a whole number from 1 to 16"),
    ('"penalty": 10', '"penalty": "30 sec"', 7, "`penalty` has to be a number"),
    ('"Minimum Number of Entries": "1"', '"Minimum Number of Entries": "10"', 12, "the minimum is above the maximum"),
    ('"Maximum Number of Entries": "9"', '"Maximum Number of Entries": "1001"', 12, "from 1 to 1,000"),
    ('"expiration"', '"expire"', 11, "there is no field `expire` (`expiration`?)"),
    ('"relationships": [\n    "merged"', '"relationship": [\n    "merged"', 2, "`relationships` is missing"),
    ('"terminated": [\n    "original"', '"auto-terminated": [\n    "original"', 6, "neither terminated nor connected"),
    ('"(a+)b"', '"(a+b"', 8, "a bracket `(` isn't closed"),
    ('"(a+)b"', '"(?<=a)b"', 8, "look-around"),
    ('"(a+)b"', '"(a)\\\\1"', 8, "a back-reference"),
    ('"(a+)b"', '"*.txt"', 8, "nothing stands in front of `*`"),
    ('"(a+)b"', '"[a-"', 8, "a bracket `[` isn't closed"),
    (".*\\\\.txt", "*.txt", 8, ""),
    (":startsWith('big')", ":startswith('big')", 9, "there is no function `startswith` (`startsWith`?)"),
    (":startsWith('big')", ":startsWith(big)", 9, "an argument is a quoted text"),
    (":startsWith('big')}", ":startsWith('big')", 9, "`}` is missing"),
    (":startsWith('big')", ":startsWith()", 9, "takes 1 arguments, and has 0"),
    ("${filename", "$${filename", 9, "`$$` can't be read"),
    ('"GetFile",', '"GetFile"', 1, "a comma is missing"),
    ('"GetFile",', '"GetFile",,', 1, "the name of a field is missing"),
    ('.*\\\\.txt', ".*\\.txt", 1, "write a backslash as \\\\"),
    ('"id": "get"', "'id': 'get'", 1, "the name of a field is missing"),
    ('"tasks": 1', '"tasks": 01', 1, "no zero may stand in front"),
    ('"tasks": 1', "// one task\n\"tasks\": 1", 1, "the name of a field is missing"),
]

# How many of these docs/flow.schema.json finds, with those that are no JSON; docs/FLOW.md says so.
FOUND_BY_SCHEMA = 31

# The same for what is legal and rarely meant.
ODDITIES = [
    ('"penalty": 10', '"penalty": 10,\n   "penalty": 20', "`penalty` stands twice in one object"),
    ("${filename:startsWith('big')}", "filename:startsWith('big')", "is never true"),
    ("${1}c", "$1c", "the pattern has no group `1c`"),
    ("${1}c", "${2}c", "the pattern has no group `2`"),
    ("${1}c", "${name}", "the pattern has no group `name`"),
    ('"Minimum Number of Entries": "1"', '"Minimum Number of Entries": "5"', "fewer than 5 files wait without end"),
    ('"Minimum Number of Entries": "1"', '"Minimum Number of Entries": "4"', "it is full with 3 files"),
    ('"Minimum Number of Entries": "1"', '"Merge Strategy": "Defragment"', "fragments wait without end"),
    ('"expiration": 0', '"expiration": 1000', "is deleted 1000 ms after"),
    ('"replace"', '"fail"', "is deleted if `out` has its name already"),
    ('"to": "put",\n   "relationships": [\n    "success",\n    "failure"',
     '"to": "route",\n   "relationships": [\n    "success",\n    "failure"', "closes a ring without a pause"),
]


def changed(old, new):
    need(WIDE.count(old) == 1, f"{old!r} stands {WIDE.count(old)} times in the flow")
    return WIDE.replace(old, new).encode()


class Cases:
    def __init__(self, program, parent):
        self.program = program
        self.parent = parent

    def verdicts(self):
        """Over every text of crates/flow_cases it names the program's rule and place, but where a pattern is too big."""
        folder = ROOT / "crates" / "flow_cases"
        lines = (folder / "stdin").read_text(encoding="utf-8").splitlines()
        wanted = (folder / "stdout").read_text(encoding="utf-8").splitlines()
        differ = 0
        for number, (line, want) in enumerate(zip(lines, wanted, strict=True), 1):
            named = flow_rules.Flow(text_of(json.loads(line))).named
            got = f"rule {named.rule} at {named.place}" if named is not None else None
            if want.startswith("rule 14 "):
                differ += got != want
                continue
            need(got == (want if re.match(r"rule \d+ at ", want) else None), f"line {number}: {got} for {want}")
        return f"{len(lines)} texts, of which {differ} with patterns that are too big"

    def tables(self):
        """The tables of tools/flow_tables.py are those of docs/flow.schema.json."""
        schema = json.loads((ROOT / "docs" / "flow.schema.json").read_text(encoding="utf-8"))["definitions"]
        for name, fields in (("processor", flow_tables.PROCESSOR), ("connection", flow_tables.CONNECTION)):
            given = schema[name]["properties"]
            need(set(given) == set(fields), f"{name}: {set(given) ^ set(fields)}")
            required = sorted(field for field in fields if field in flow_tables.REQUIRED)
            need(sorted(schema[name]["required"]) == required, f"{name}: required are {required}")
            for field, shape in fields.items():
                if isinstance(shape, tuple):
                    here = schema["count"] if "allOf" in given[field] else given[field]
                    need((here["minimum"], here["maximum"]) == shape, f"{name}: {field} is {shape}")
        need(set(schema["processor"]["properties"]["type"]["enum"]) == set(flow_tables.TYPES), "the types differ")

    def page(self):
        """docs/FLOW.md has each field with the range and the default of the schema, each rule and each prioritizer."""
        text = (ROOT / "docs" / "FLOW.md").read_text(encoding="utf-8")
        rows = [[cell.strip() for cell in line.strip("|").split("|")] for line in text.splitlines() if line[:2] == "| "]
        told = {name.strip("`"): row for row in rows for name in row[0].split(", ")}
        schema = json.loads((ROOT / "docs" / "flow.schema.json").read_text(encoding="utf-8"))["definitions"]
        for name, fields in (("processor", flow_tables.PROCESSOR), ("connection", flow_tables.CONNECTION)):
            for field, shape in fields.items():
                need(field in told, f"it has no row for `{field}`")
                default = schema[name]["properties"][field].get("default")
                wanted = str(default) if isinstance(shape, tuple) else "none"
                wanted = "required" if field in flow_tables.REQUIRED else wanted
                need(told[field][2] == wanted, f"`{field}`: the default is {wanted}")
                if isinstance(shape, tuple):
                    need(told[field][1] == f"{shape[0]} to {shape[1]}", f"`{field}` is {shape[0]} to {shape[1]}")
        need(all(one in told for one in flow_tables.PRIORITIZERS), "a prioritizer is missing")
        need(all(str(rule) in told for rule in range(1, 15)), "a rule is missing")

    def mistakes(self):
        """Each mistake is told by its rule, its line and in words."""
        need(not flow_rules.Flow(WIDE.encode()).findings, "the flow itself is refused")
        for old, new, rule, words in MISTAKES:
            text = changed(old, new)
            named = flow_rules.Flow(text).named
            need(named is not None and named.rule == rule, f"{new!r}: {named}")
            said = [finding.what for finding in flow_rules.Flow(text).findings]
            need(any(words in what for what in said), f"{new!r}: it says {said}")
            lines = text.decode().count("\n") + 1
            need(1 <= named.line <= lines, f"{new!r}: line {named.line} of {lines}")
        return f"{len(MISTAKES)} mistakes"

    def schema(self):
        """docs/flow.schema.json finds as many of the mistakes as docs/FLOW.md says (it needs the module jsonschema)."""
        try:
            import jsonschema
        except ImportError:
            return "left out: the module jsonschema is missing"
        validator = jsonschema.Draft7Validator(json.loads((ROOT / "docs" / "flow.schema.json").read_text(encoding="utf-8")))
        found = 0
        for old, new, _, _ in MISTAKES:
            try:
                found += not validator.is_valid(json.loads(changed(old, new)))
            except ValueError:
                found += 1
        page = " ".join((ROOT / "docs" / "FLOW.md").read_text(encoding="utf-8").split())
        need(found == FOUND_BY_SCHEMA, f"it finds {found}")
        need(f"of the {len(MISTAKES)} mistakes in tests/explain.py it finds {found}," in page, "docs/FLOW.md says otherwise")
        return f"{found} of {len(MISTAKES)}"

    def oddities(self):
        """What is legal and rarely meant is told, and a sound flow isn't refused for it."""
        for old, new, words in ODDITIES:
            flow = flow_rules.Flow(changed(old, new))
            need(not flow.findings, f"{new!r} is refused: {flow.findings}")
            said = [warning.what for warning in flow_warnings.of(flow)]
            need(any(words in what for what in said), f"{new!r}: it says {said}")
        return f"{len(ODDITIES)} oddities"

    def command(self):
        """`flow explain` prints file, line and rule, and ends with 1, 0 and 2."""
        with work_folder(self.parent, FIRST.replace('"PutFile"', '"PutFiel"').encode()) as folder:
            told = subprocess.run([ROOT / "flow", "explain"], cwd=folder, capture_output=True, text=True, check=False)
            line = 'flow.json:6: processor "put": there is no type `PutFiel` (`PutFile`?) (rule 3)'
            need(told.returncode == 1 and line in told.stdout, f"it ended with {told.returncode}: {told.stdout}")
            (folder / "flow.json").write_text(FIRST, encoding="utf-8")
            told = subprocess.run([ROOT / "flow", "explain", "flow.json"], cwd=folder, capture_output=True, text=True,
                                  check=False)
            need(told.returncode == 0, f"it ended with {told.returncode}: {told.stdout}")
            told = subprocess.run([ROOT / "flow", "explain", "none"], cwd=folder, capture_output=True, text=True,
                                  check=False)
            need(told.returncode == 2, f"it ended with {told.returncode}: {told.stdout}")

    def advice(self):
        """After a status past 1 a line says what to do; the status is the program's."""
        self.advises(DONE, None)
        self.advises(USAGE, "the commands are `run`", words=("go",))
        self.advises(REFUSED, "there is no type `Get`", text=FIRST.replace("GetFile", "Get"))
        self.advises(SOURCE, "no readable file `flow.json`", before=lambda folder: (folder / "flow.json").unlink())
        self.advises(INBOX, "isn't UTF-8", before=lambda folder: write_files(folder / "in", {b"\xff": b"x"}))
        self.advises(OUTBOX, "`out/a` is a folder", before=self.block)

        def other(folder):
            write_files(folder / "in", {"a": b""})
            subprocess.run([self.program, "run"], cwd=folder, check=True, stdout=subprocess.DEVNULL)
            (folder / "flow.json").write_text(FIRST + "\n", encoding="utf-8")
        self.advises(REFUSED, "the store belongs to another text of flow.json", before=other)

    def launcher(self):
        """The launcher says what there is, and refuses words that no command begins with, without a build."""
        flow = ROOT / "flow"
        said = subprocess.run([flow, "--help"], capture_output=True, text=True, check=False)
        need(said.returncode == DONE, f"--help ends with {said.returncode}")
        for command in ("run", "queues", "events", "lineage UUID", "content UUID", "check", "trial N", "explain"):
            need(f"\n  {command} " in said.stdout, f"--help doesn't name {command}")
        said = subprocess.run([flow, "--version"], capture_output=True, text=True, check=False)
        need(said.returncode == DONE and said.stdout.count("\n") == 1, f"--version says {said.stdout!r}")
        for words in ((), ("go",), ("trials", "20"), ("-h",), ("",)):
            ended = subprocess.run([flow, *words], capture_output=True, timeout=10, check=False)
            need((ended.returncode, ended.stdout) == (USAGE, printed.USAGE_LINE), f"{words} ended with {ended.returncode}")

    @staticmethod
    def block(folder):
        write_files(folder / "in", {"a": b"x"})
        (folder / "out" / "a").mkdir(parents=True)

    def advises(self, status, told_words, text=FIRST, before=None, words=("run",)):
        with work_folder(self.parent, text.encode()) as folder:
            if before is not None:
                before(folder)
            ended = subprocess.run([self.program, *words], cwd=folder, check=False)
            told = subprocess.run([ROOT / "tools" / "advise", str(ended.returncode)], cwd=folder, capture_output=True,
                                  text=True, check=False)
            need(ended.returncode == status, f"it ended with {ended.returncode}")
            need(told.stdout == "" if told_words is None else told_words in told.stdout,
                 f"it says {told.stdout!r}, {told.stderr!r}")


def main():
    given = options(__doc__.splitlines()[0]).parse_args()
    cases = Cases(find_program(given.program), given.folder)
    report = Report()
    for body in (cases.verdicts, cases.tables, cases.page, cases.mistakes, cases.schema, cases.oddities, cases.command,
                 cases.advice, cases.launcher):
        report.case(body.__doc__.splitlines()[0].rstrip("."), body)
    report.end()


if __name__ == "__main__":
    main()
