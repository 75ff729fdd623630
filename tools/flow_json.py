"""A reader of JSON (RFC 8259) that keeps the line of each value and each key, and all members of a doubled key."""

import dataclasses
import re

# As many objects and lists as may be open at a place.
DEPTH_MAX = 127

NUMBER = re.compile(r"-?(?:0|[1-9][0-9]*)(?:\.[0-9]+)?(?:[eE][+-]?[0-9]+)?")
PLAIN = re.compile(r'[^"\\\x00-\x1f]*')
ESCAPES = {'"': '"', "\\": "\\", "/": "/", "b": "\b", "f": "\f", "n": "\n", "r": "\r", "t": "\t"}
HEX = re.compile(r"[0-9a-fA-F]{4}")


class NotJson(Exception):
    """What is wrong with a text, and at which line."""

    def __init__(self, line, what):
        super().__init__(what)
        self.line = line


@dataclasses.dataclass
class Value:
    """A value: `kind` is object, list, text, number, true, false or null. `data` has the members of an object as
    triples (name, line, value), the items of a list, the characters of a text, or a number as it is written."""
    kind: str
    line: int
    data: object = None

    def members(self):
        """The members by name, the last one of each; none where it is no object."""
        return {name: value for name, _, value in self.data} if self.kind == "object" else {}

    def items(self):
        return self.data if self.kind == "list" else []


def read(data):
    """The value that some bytes stand for."""
    try:
        text = data.decode()
    except UnicodeDecodeError as error:
        raise NotJson(1 + data[:error.start].count(b"\n"), "this line isn't UTF-8") from None
    reader = Reader(text)
    value = reader.value(0)
    reader.blank()
    if reader.at < len(text):
        raise reader.wrong("something stands after the end of the object")
    return value


class Reader:
    def __init__(self, text):
        self.text = text
        self.at = 0
        self.line = 1

    def wrong(self, what):
        return NotJson(self.line, what)

    def blank(self):
        while self.at < len(self.text) and self.text[self.at] in " \t\r\n":
            self.line += self.text[self.at] == "\n"
            self.at += 1

    def peek(self):
        self.blank()
        if self.at == len(self.text):
            raise self.wrong("the text ends too early: a bracket or a quote isn't closed")
        return self.text[self.at]

    def expect(self, mark, what):
        if self.peek() != mark:
            raise self.wrong(what)
        self.at += 1

    def value(self, depth):
        mark = self.peek()
        line = self.line
        if mark in "{[":
            if depth == DEPTH_MAX:
                raise self.wrong("brackets are nested too deep")
            return self.object(line, depth) if mark == "{" else self.list(line, depth)
        if mark == '"':
            return Value("text", line, self.string())
        for word in ("true", "false", "null"):
            if self.text.startswith(word, self.at):
                self.at += len(word)
                return Value(word, line)
        return Value("number", line, self.number())

    def object(self, line, depth):
        members = []
        self.at += 1
        while self.peek() != "}":
            if members:
                self.expect(",", "a comma is missing in front of this, or a bracket isn't closed")
            if self.peek() != '"':
                raise self.wrong("the name of a field is missing here (a comma too many?)")
            at = self.line
            name = self.string()
            self.expect(":", "a colon is missing after the name of a field")
            members.append((name, at, self.value(depth + 1)))
        self.at += 1
        return Value("object", line, members)

    def list(self, line, depth):
        items = []
        self.at += 1
        while self.peek() != "]":
            if items:
                self.expect(",", "a comma is missing in front of this, or a bracket isn't closed")
                if self.peek() == "]":
                    raise self.wrong("there is a comma too many")
            items.append(self.value(depth + 1))
        self.at += 1
        return Value("list", line, items)

    def string(self):
        self.at += 1
        parts = []
        while True:
            plain = PLAIN.match(self.text, self.at)
            parts.append(plain.group())
            self.at = plain.end()
            if self.at == len(self.text) or self.text[self.at] == "\n":
                raise self.wrong("a quote isn't closed")
            if self.text[self.at] == '"':
                self.at += 1
                return "".join(parts)
            if self.text[self.at] != "\\":
                raise self.wrong("a control character stands in quotes: write \\t, \\n or \\u00..")
            parts.append(self.escape())

    def escape(self):
        mark = self.text[self.at + 1:self.at + 2]
        if mark in ESCAPES and mark:
            self.at += 2
            return ESCAPES[mark]
        if mark != "u":
            raise self.wrong(f"JSON has no escape \\{mark}: write a backslash as \\\\")
        high = self.unit()
        if 0xD800 <= high < 0xDC00 and self.text.startswith("\\u", self.at):
            low = self.unit()
            if 0xDC00 <= low < 0xE000:
                return chr(0x10000 + ((high - 0xD800) << 10) + low - 0xDC00)
            high = low
        if 0xD800 <= high < 0xE000:
            raise self.wrong("half of a pair of \\u escapes is missing")
        return chr(high)

    def unit(self):
        digits = HEX.match(self.text, self.at + 2)
        if digits is None:
            raise self.wrong("\\u wants four hexadecimal digits")
        self.at = digits.end()
        return int(digits.group(), 16)

    def number(self):
        found = NUMBER.match(self.text, self.at)
        if found is None:
            raise self.wrong(f"no value begins with {self.text[self.at]!r}")
        written = found.group()
        if float(written) in (float("inf"), float("-inf")):
            raise self.wrong("this number is too large")
        self.at = found.end()
        if self.text[self.at:self.at + 1].isalnum():
            raise self.wrong("a number is followed by something else (no zero may stand in front)")
        return written
