#!/usr/bin/env python3
"""Names of the crates that nothing uses: definitions in specs/ that no other file imports and no other definition of
their file names, and public functions in src/ that stand nowhere but where they are defined and handed on.

    tests/names.py [ROOT] [--doubled]

It reads words and proves nothing: a function's name that is used for another one counts as used. A law is a function
that takes nothing and gives nothing: it states something, and is only counted. It also counts the names that stand in
the specs/ of more than one crate; `--doubled` prints each with its files. It needs no program. The status is 1 if
nothing uses a definition or a function, or if more names are doubled than MOST_DOUBLED."""

import argparse
import collections
import pathlib
import re
import sys

ROOT = pathlib.Path(__file__).resolve().parent.parent

# So many names may have definitions in more than one crate. That number may fall and not rise.
MOST_DOUBLED = 46

WORD = re.compile(r"[^\W\d]\w*(?:-\w+)*'*")
BEGUN = re.compile(r"(?!pub mod |pub use )(?:abbrev |unfoldable |pub |record |data )+(\S+)|(\S+) :(?= |$)")
IMPORT = re.compile(r"^ *(?:pub )?(?:ghost )?use ([\w.]+?)(?:\.\{([^}]*)\}| as (\S+?))?;?$", re.MULTILINE | re.DOTALL)
FUNCTION = re.compile(r"^ *pub(?:\([a-z]+\))? (?:const )?fn (\w+)(.*)$", re.MULTILINE)
HANDED_ON = re.compile(r"^ *pub(?:\([a-z]+\))? use [^;]*;", re.MULTILINE)


def bare(path):
    """A file's text without comments."""
    mark = "--" if path.suffix == ".antt" else "//"
    return re.sub(rf"^([^\"\n]*?)(?<!\S){mark}.*$", r"\1", path.read_text(encoding="utf-8"), flags=re.MULTILINE)


def module_of(path, root):
    """The module that a file of definitions is, as imports write it."""
    parts = path.relative_to(root / "crates").with_suffix("").parts
    return ".".join(("Rattle", *parts))


def definitions_in(text):
    """Each definition with its own lines: from the line that begins it to the one that begins the next."""
    found, name = collections.OrderedDict(), None
    for line in text.splitlines():
        begun = BEGUN.match(line)
        if begun:
            name = begun[1] or begun[2]
            found.setdefault(name, [])
        if name is not None:
            found[name].append(line)
    return {name: "\n".join(lines) for name, lines in found.items()}


def imported(texts):
    """What the files import: of each module the names, and the names by which an alias of it is asked."""
    found = collections.defaultdict(set)
    for text in texts.values():
        for module, names, alias in IMPORT.findall(text):
            parent, _, last = module.rpartition(".")
            found[parent].add(last)
            found[module] |= {one.split()[0] for one in names.split(",") if one.strip()}
            if alias:
                found[module] |= set(re.findall(rf"\b{re.escape(alias)}\.([\w'-]+)", text))
    return found


def specs(texts):
    """The definitions of each file of specs/."""
    for path, text in texts.items():
        if path.suffix == ".antt" and "specs" in path.parts:
            yield path, definitions_in(text)


def doubled_names(root, texts):
    """The names that more than one crate defines, with their files."""
    places = collections.defaultdict(list)
    for path, parts in specs(texts):
        for name in parts:
            places[name].append(path.relative_to(root / "crates").as_posix().replace("/specs/", "/"))
    return {name: found for name, found in sorted(places.items()) if len({it.split("/")[0] for it in found}) > 1}


def unused_definitions(root, texts):
    wanted = imported(texts)
    for path, parts in specs(texts):
        for name in parts:
            sign = name.strip("◌")
            named = any(sign in (part.split() if sign != name else WORD.findall(part))
                        for other, part in parts.items() if other != name)
            if not named and name not in wanted[module_of(path, root)]:
                yield path, name


def unused_functions(texts):
    sources = {path: HANDED_ON.sub("", text) for path, text in texts.items()}
    counts = collections.Counter(word for text in sources.values() for word in WORD.findall(text))
    for path, text in texts.items():
        if path.suffix == ".rt":
            yield from ((path, name, end == "()") for name, end in FUNCTION.findall(text) if counts[name] == 1)


def main():
    parser = argparse.ArgumentParser(description=__doc__, formatter_class=argparse.RawDescriptionHelpFormatter)
    parser.add_argument("root", nargs="?", default=ROOT, help="the tree (default: the one that this script stands in)")
    parser.add_argument("--doubled", action="store_true", help="print each name that more than one crate defines")
    given = parser.parse_args()
    root = pathlib.Path(given.root).resolve()
    texts = {path: bare(path) for path in sorted((root / "crates").rglob("*"))
             if path.suffix in (".antt", ".rt") and "out" not in path.relative_to(root).parts}
    definitions, functions = list(unused_definitions(root, texts)), list(unused_functions(texts))
    laws = sum(is_law for _, _, is_law in functions)
    functions = [(path, name) for path, name, is_law in functions if not is_law]
    doubled = doubled_names(root, texts)
    for path, name in definitions + functions:
        print(f"{path.relative_to(root)}: {name}")
    for name, places in doubled.items() if given.doubled else ():
        print(f"{name}: {', '.join(places)}")
    print(f"{laws} laws that nothing calls")
    print(f"{len(doubled)} names that more than one crate defines, of at most {MOST_DOUBLED}")
    print(f"{len(definitions)} definitions and {len(functions)} functions that nothing uses")
    return 1 if definitions or functions or len(doubled) > MOST_DOUBLED else 0


if __name__ == "__main__":
    sys.exit(main())
