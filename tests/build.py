#!/usr/bin/env python3
"""In which order tools/libraries builds what the program stands on, with a builder in the place of `rt` that only
notes when it was called: each library behind those that it names, several at once, none behind a failure."""

import os
import subprocess
import sys

from support import ROOT, Report, need, new_folder, options

# Notes its crate and words when it begins and when it ends, and fails in one crate.
BUILDER = """#!/usr/bin/env bash
crate=$(basename "$PWD")
# As rt does, it keeps others out of the folder of a crate below.
if [ -d ../flowfile_record ] && command -v flock >/dev/null; then
    exec 9<../flowfile_record
    flock 9
fi
printf 'begin %s %s\\n' "$crate" "$*" >> "$NOTES"
sleep 0.05
printf 'end %s\\n' "$crate" >> "$NOTES"
if [ "$crate" = "$FAILING" ]; then
    printf 'a goal that nothing proves\\n'
    exit 1
fi
"""


def crates():
    """The crates of crates.txt, each with those of the repository that it names."""
    lines = [line.partition("#")[0].strip() for line in (ROOT / "crates.txt").read_text().splitlines()]
    rows = [line.split(":") for line in lines if line]
    named = {row[0].split()[0]: row[1].split() for row in rows}
    return {name: [one for one in below if one in named] for name, below in named.items()}


def below(named, crate):
    found = set()
    for name in named[crate]:
        found |= {name} | below(named, name)
    return found


def build(folder, crate, failing=""):
    """Runs tools/libraries with that builder, and gives how it ended and what the builder noted."""
    (folder / "rt").write_text(BUILDER)
    (folder / "rt").chmod(0o755)
    notes = folder / "notes"
    notes.write_text("")
    ended = subprocess.run([ROOT / "tools" / "libraries", crate], stdout=subprocess.PIPE, stderr=subprocess.PIPE,
                           text=True, check=False,
                           env={**os.environ, "PATH": f"{folder}:{os.environ['PATH']}", "NOTES": str(notes),
                                "FAILING": failing})
    return ended, [line.split() for line in notes.read_text().splitlines()]


class Cases:
    def __init__(self, parent):
        self.parent = parent

    def in_order(self):
        named = crates()
        with new_folder(self.parent) as folder:
            ended, notes = build(folder, "flow_program")
        need(ended.returncode == 0, f"it ended with {ended.returncode}: {ended.stderr[-500:]}")
        done, at_work, most, begun = set(), 0, 0, []
        for word, crate, *_ in notes:
            if word == "begin":
                need(set(named[crate]) <= done, f"{crate} was begun before {set(named[crate]) - done}")
                begun.append(crate)
                at_work += 1
                most = max(most, at_work)
            else:
                done.add(crate)
                at_work -= 1
        need(len(begun) == len(set(begun)), "a library was built twice")
        need(set(begun) == below(named, "flow_program"), f"these were built: {sorted(begun)}")
        if len(os.sched_getaffinity(0)) > 1:
            need(most > 1, "no two libraries were built at once")
        need(f"0 of {len(begun)} libraries are left" in ended.stderr, ended.stderr[-300:])
        return f"{len(begun)} libraries, at most {most} at once"

    def shares_processors(self):
        """What is at work together never has more jobs than there are processors."""
        with new_folder(self.parent) as folder:
            _, notes = build(folder, "run_top")
        at_work = {}
        for word, crate, *words in notes:
            if word == "begin":
                need(words[:2] == ["lib", "--jobs"], f"{crate} was built by {words}")
                at_work[crate] = int(words[2])
                need(sum(at_work.values()) <= len(os.sched_getaffinity(0)), f"at once: {at_work}")
            else:
                del at_work[crate]

    def fails(self):
        named = crates()
        with new_folder(self.parent) as folder:
            ended, notes = build(folder, "flow_program", failing="settlement")
        need(ended.returncode == 1, f"it ended with {ended.returncode}")
        need("a goal that nothing proves" in ended.stderr and "settlement can't be built" in ended.stderr, ended.stderr)
        begun = {crate for word, crate, *_ in notes if word == "begin"}
        above = {crate for crate in begun if "settlement" in below(named, crate)}
        need(not above, f"{above} were begun over a library that isn't built")

    def unknown(self):
        with new_folder(self.parent) as folder:
            ended, notes = build(folder, "no_such_crate")
        need(ended.returncode == 1 and not notes, f"it ended with {ended.returncode}, and built {notes}")
        need("crates.txt has no no_such_crate" in ended.stderr, ended.stderr)


def main():
    given = options(__doc__).parse_args()
    cases = Cases(given.folder)
    report = Report()
    report.case("each library behind those that it names, several at once", cases.in_order)
    report.case("no more jobs than processors", cases.shares_processors)
    report.case("a library that can't be built is named, and none above it is begun", cases.fails)
    report.case("a crate that isn't there", cases.unknown)
    report.end()


if __name__ == "__main__":
    sys.exit(main())
