"""What can't be read in a pattern, as far as this script sees: the commonest mistakes, and not the whole syntax.

The patterns are those of Rust's crate regex: no look-around, no back-references."""

import re

LOOKS = ("(?=", "(?!", "(?<=", "(?<!")
# What may follow a backslash, besides digits and p, x, u, U, b with braces.
LETTERS = frozenset("dDsSwWbBAzntrfvapPxuU<>")
COUNT = re.compile(r"\{\s*(\d+)\s*(?:(,)\s*(\d*)\s*)?\}")
GROUP = re.compile(r"\(\?(?:P?<([A-Za-z_][A-Za-z0-9_.\[\]]*)>|([imsUuRx]*(?:-[imsUuRx]+)?)([:)]))")
SPAN = re.compile(r"([^\]\[\\-])-([^\]\[\\-])")
NESTED_MAX = 250


class Unreadable(Exception):
    pass


def wrong_with(text):
    """What is wrong with a pattern, or None where nothing was found."""
    try:
        Reader(text).whole()
    except Unreadable as error:
        return str(error)
    return None


class Reader:
    def __init__(self, text):
        self.text = text
        self.at = 0
        self.open = 0
        self.names = set()
        # Whether something stands in front that may be repeated.
        self.repeats = False

    def whole(self):
        while self.at < len(self.text):
            self.step(self.text[self.at])
        if self.open:
            raise Unreadable("a bracket `(` isn't closed")

    def step(self, mark):
        if mark == "(":
            self.group()
        elif mark == ")":
            self.close()
        elif mark == "[":
            self.set()
            self.repeats = True
        elif mark == "\\":
            self.escape()
            self.repeats = True
        elif mark in "*+?" or mark == "{":
            self.repetition(mark)
        else:
            self.at += 1
            self.repeats = mark not in "|"

    def close(self):
        if not self.open:
            raise Unreadable("a bracket `)` isn't opened")
        self.open -= 1
        self.at += 1
        self.repeats = True

    def group(self):
        if self.text.startswith(LOOKS, self.at):
            raise Unreadable("look-around (`(?=`, `(?!`, `(?<=`, `(?<!`) isn't supported")
        self.repeats = False
        if not self.text.startswith("(?", self.at):
            self.at += 1
            self.open += 1
        else:
            found = GROUP.match(self.text, self.at)
            if found is None:
                raise Unreadable(f"no group begins with `{self.text[self.at:self.at + 4]}`")
            name = found.group(1)
            if name is not None and name in self.names:
                raise Unreadable(f"two groups are named `{name}`")
            self.names.add(name)
            if found.group(3) == ")" and not found.group(2):
                raise Unreadable("`(?)` names no flag")
            self.open += found.group(3) != ")"
            self.at = found.end()
        if self.open > NESTED_MAX:
            raise Unreadable("it nests too deep")

    def repetition(self, mark):
        if not self.repeats:
            raise Unreadable(f"nothing stands in front of `{mark}` that it could repeat")
        if mark == "{":
            found = COUNT.match(self.text, self.at)
            if found is None:
                raise Unreadable("a brace `{` begins a count like `{2,5}`: write `\\{` for the brace itself")
            least, most = int(found.group(1)), found.group(3)
            if most and int(most) < least:
                raise Unreadable(f"`{found.group()}` counts backwards")
            self.at = found.end()
        else:
            self.at += 1
        if self.text.startswith("?", self.at):
            self.at += 1

    def escape(self):
        mark = self.text[self.at + 1:self.at + 2]
        if not mark:
            raise Unreadable("it ends with a backslash (in JSON a backslash is written as `\\\\`)")
        if mark.isdigit():
            raise Unreadable("a back-reference (`\\1`) isn't supported")
        if mark.isalpha() and mark not in LETTERS:
            raise Unreadable(f"there is no escape `\\{mark}`")
        self.at += 2
        if mark in "pP":
            found = re.compile(r"\{[^}]+\}|[A-Z]").match(self.text, self.at)
        elif mark in "xuU":
            digits = {"x": 2, "u": 4, "U": 8}[mark]
            found = re.compile(r"\{[0-9a-fA-F]+\}|[0-9a-fA-F]{%d}" % digits).match(self.text, self.at)
        else:
            return
        if found is None:
            raise Unreadable(f"after `\\{mark}` something is missing")
        self.at = found.end()

    def set(self):
        """A set in square brackets, which may have sets in it."""
        depth, first = 0, False
        while self.at < len(self.text):
            mark = self.text[self.at]
            if mark == "\\":
                self.escape()
                first = False
                continue
            if mark == "[":
                depth += 1
                self.at += 1
                if self.text.startswith("^", self.at):
                    self.at += 1
                first = True
                continue
            span = SPAN.match(self.text, self.at)
            if span is not None and span.group(1) > span.group(2):
                raise Unreadable(f"`{span.group()}` counts backwards")
            self.at += 1 if span is None else 3
            if mark == "]" and not first and span is None:
                depth -= 1
                if depth == 0:
                    return
            first = False
        raise Unreadable("a bracket `[` isn't closed")
