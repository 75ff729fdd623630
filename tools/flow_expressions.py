"""Whether a text with expressions can be read, by the grammar in docs/EXPRESSIONS.md."""

import re

TEXT_MAX = 4_096
NESTED_MAX = 16
SPACES = " \t\n\r"
NAME = re.compile(r"[A-Za-z_][A-Za-z0-9_.-]*")
NUMBER = re.compile(r"-?[0-9]{1,19}(?![0-9])")
QUOTED_ESCAPES = "\\'\"nrt"

# How many arguments each function has.
FUNCTIONS = {"equals": 1, "startsWith": 1, "endsWith": 1, "contains": 1, "isEmpty": 0, "append": 1, "prepend": 1,
             "substringBefore": 1, "substringAfter": 1, "replace": 2, "length": 0, "toUpper": 0, "toLower": 0, "gt": 1,
             "lt": 1, "plus": 1, "minus": 1, "and": 1, "or": 1, "not": 0}


class Unreadable(Exception):
    pass


def wrong_with(text):
    """What is wrong with a text, or None where it can be read."""
    if len(text.encode()) > TEXT_MAX:
        return f"it has more than {TEXT_MAX:,} bytes"
    try:
        Reader(text).whole()
    except Unreadable as error:
        return str(error)
    return None


class Reader:
    def __init__(self, text):
        self.text = text
        self.at = 0

    def whole(self):
        while self.at < len(self.text):
            if self.text.startswith("${", self.at):
                self.embedded(1)
            elif self.text.startswith("$$", self.at):
                raise Unreadable("`$$` can't be read: a single dollar stands for itself")
            else:
                self.at += 1

    def skip(self):
        while self.at < len(self.text) and self.text[self.at] in SPACES:
            self.at += 1

    def take(self, mark):
        self.skip()
        if not self.text.startswith(mark, self.at):
            return False
        self.at += len(mark)
        return True

    def want(self, mark):
        if not self.take(mark):
            found = self.text[self.at:self.at + 1]
            raise Unreadable(f"`{mark}` is missing " + (f"in front of `{found}`" if found else "at the end"))

    def embedded(self, depth):
        if depth > NESTED_MAX:
            raise Unreadable(f"expressions are nested more than {NESTED_MAX} deep")
        self.at += 2
        self.subject(depth)
        while self.take(":"):
            self.call(depth)
        self.want("}")

    def subject(self, depth):
        self.skip()
        if self.text[self.at:self.at + 1] in ("'", '"'):
            self.quoted()
            return
        name = self.name("an attribute's name is missing (`${attribute}`)")
        here = self.at
        if name == "literal" and self.take("("):
            self.argument(depth)
            self.want(")")
        elif name != "literal":
            self.at = here

    def name(self, missing):
        found = NAME.match(self.text, self.at)
        if found is None:
            raise Unreadable(missing)
        self.at = found.end()
        return found.group()

    def call(self, depth):
        self.skip()
        name = self.name("the name of a function is missing after `:`")
        if name not in FUNCTIONS:
            raise Unreadable(f"there is no function `{name}`{nearest(name, FUNCTIONS)}")
        self.want("(")
        count = 0
        if not self.take(")"):
            count = 1
            self.argument(depth)
            while self.take(","):
                count += 1
                self.argument(depth)
            self.want(")")
        if count != FUNCTIONS[name]:
            raise Unreadable(f"`{name}` takes {FUNCTIONS[name]} arguments, and has {count}")

    def argument(self, depth):
        self.skip()
        if self.text[self.at:self.at + 1] in ("'", '"') and self.at < len(self.text):
            self.quoted()
        elif self.text.startswith("${", self.at):
            self.embedded(depth + 1)
        elif (number := NUMBER.match(self.text, self.at)) is not None:
            if not -2**63 <= int(number.group()) < 2**63:
                raise Unreadable(f"{number.group()} is no number of 64 bits")
            self.at = number.end()
        elif self.name("an argument is missing, or is no quoted text") not in ("true", "false"):
            raise Unreadable("an argument is a quoted text, a number, true, false or an expression in `${..}`")

    def quoted(self):
        mark = self.text[self.at]
        self.at += 1
        while self.at < len(self.text):
            found = self.text[self.at]
            self.at += 1
            if found == mark:
                return
            if found == "\\":
                if self.text[self.at:self.at + 1] not in QUOTED_ESCAPES or self.at == len(self.text):
                    raise Unreadable("after a backslash in quotes stands none of \\ ' \" n r t")
                self.at += 1
        raise Unreadable(f"a quote {mark} isn't closed")


def nearest(name, names):
    """The nearest of some names, as a question, if one is near."""
    import difflib
    found = difflib.get_close_matches(name, list(names), 1, 0.6)
    return f" (`{found[0]}`?)" if found else ""
