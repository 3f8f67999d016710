#!/usr/bin/env python3
"""Whether what the documents name stands in the sources.

A clause is cited in code marks as `function: clause` or `function: clause, clause`, a method as `Type::method: clause`, and
what a trait or a type states of itself as `Type: fact`. In the README of a crate such a clause stands in that crate; so it does
in a row of a table whose first cell links to a crate's README; elsewhere in some crate. What is called a law is a function
there, and a name in code marks with a `_` or a capital in front occurs there. Each public item of a crate is named in its
README, in code marks. A file that is named or linked to is there. Each crate of crates.txt stands in one of the tables of
docs/ARCHITECTURE.md, in the same order, and docs/crates.svg has the arrows that docs/crates.py draws.

usage: tests/documents.py [--selftest]

With --selftest wrong documents are made in a small repository, and each has to be found. The last line is 'N passed, M failed'.
"""

import re
import sys
import tempfile
from pathlib import Path

HERE = Path(__file__).resolve().parent.parent
sys.path.insert(0, str(HERE / "docs"))

from crates import find_arrows, read_crates

CONTEXT = re.compile(r"(?:unsafe )?(?:pub )?(?:impl|trait|struct|enum)\b")
FUNCTION = re.compile(r"\s*(pub )?(?:const |unsafe |extern \S+ )*fn (\w+)")
CLAUSE = re.compile(r"\s*(?:ensures|requires)\*? (\w+) \{")
FACT = re.compile(r"    ghost (\w+)(?::| =)")
ITEM = re.compile(r"pub (?:unsafe |extern \S+ )*(?:fn|struct|enum|trait|const|type) (\w+)")
CITATION = re.compile(r"([A-Za-z_]\w*(?:::\w+)?): ([a-z]\w*(?:, [a-z]\w*)*)")
NAME = re.compile(r"[A-Za-z_]\w*(?:::\w+)*")
PATH = re.compile(r"(?<![\w/.])(?:bench|c|crates|docs|launcher|python|tests)/[\w./-]*\w")
TESTS = re.compile(r"#\[cfg\(test\)\]\nmod (\w+);")
LINK = re.compile(r"\[[^\]]*\]\(([^)\s]+)\)")


def type_of(line):
    """The type that an `impl`, a trait or a declaration is about, and whether its methods are its own."""
    line = re.sub(r"<[^<>]*>", "", re.sub(r"<[^<>]*>", "", line))
    found = re.search(r"\bfor (\w+)", line) or re.search(r"(?:impl|trait|struct|enum) (\w+)", line)
    return found[1], " for " not in line


class Crate:
    """What the sources of a crate declare."""

    def __init__(self, folder):
        self.folder, self.name = folder, folder.name
        self.clauses = {}
        self.methods = {}
        self.items = {}
        self.exports = []
        self.words = set()
        sources = sorted((folder / "src").rglob("*.rt"))
        tests = {name for file in sources for name in TESTS.findall(file.read_text())}
        for file in sources:
            if not tests & set(file.relative_to(folder).with_suffix("").parts):
                self.read(file)
        for file in [*folder.glob("src/**/*.rt"), *folder.glob("specs/**/*.antt"), *folder.glob("proofs/**/*.antt")]:
            self.words.add(file.stem)
            self.words.update(re.findall(r"[A-Za-z_][\w-]*", file.read_text()))

    def read(self, file):
        context, own, trait, function = None, False, False, None
        for line in file.read_text().splitlines():
            if re.match(r"(#\[cfg\(test\)\]|mod tests )", line):
                return
            if CONTEXT.match(line):
                context, own = type_of(line)
                trait = "trait " in line
                function = None
            if line == "}":
                context, function = None, None
            if found := ITEM.match(line):
                self.items.setdefault(file.stem, []).append(found[1])
                if " extern " in line:
                    self.exports.append(found[1])
            if found := FUNCTION.match(line):
                function = f"{context}::{found[2]}" if context else found[2]
                self.clauses.setdefault(function, set())
                if context and own and (found[1] or trait):
                    self.methods.setdefault(context, []).append(function)
            elif (found := CLAUSE.match(line)) and function:
                self.clauses[function].add(found[1])
            elif (found := FACT.match(line)) and context:
                self.clauses.setdefault(context, set()).add(found[1])

    def public(self):
        """The public items, each method behind its type, and the functions that C may call."""
        root = self.folder / "src" / "lib.rt"
        if not root.is_file():
            return []
        text = root.read_text()
        named = [*self.items.get("lib", []), *self.exports]
        for found in re.finditer(r"^pub use [\w:]+::(?:\{([^}]*)\}|(\w+));", text, re.M):
            named += re.findall(r"\w+", found[1] or found[2])
        for found in re.finditer(r"^pub mod (\w+);", text, re.M):
            named += self.items.get(found[1], [])
        return [it for name in named for it in [name, *self.methods.get(name, [])]]

    def has_clauses(self, function, clauses):
        """Whether a function has these clauses; a method may be named without its type."""
        return any(found >= clauses for name, found in self.clauses.items() if function in (name, name.split("::")[-1]))

    def declares(self, name):
        return all(it in self.words for it in name.split("::"))


class Repository:
    """The crates and the documents, and what is wrong with these."""

    def __init__(self, root):
        self.root = root
        self.listed = re.findall(r"^(\w+)(?: staticlib)?:", (root / "crates.txt").read_text(), re.M)
        self.crates = {name: Crate(root / "crates" / name) for name in self.listed}
        # The library for C and the module for Python have their names from these.
        beside = [*root.glob("c/*.[ch]"), *root.glob("python/*/*.py")]
        self.beside = {name for file in beside for name in re.findall(r"\w+", file.read_text())}
        pages = [*root.glob("*.md"), *root.glob("docs/*.md"), *root.glob("crates/*/README.md"), *root.glob("bench/*.md")]
        self.pages = sorted(pages)

    def about(self, page, line):
        """The crates in which what a line names has to stand."""
        if page.parent.name in self.crates:
            return [self.crates[page.parent.name]]
        row = re.match(r"\| \[(\w+)\]", line)
        return [self.crates[row[1]]] if row and row[1] in self.crates else self.crates.values()

    def spans(self, page):
        """The code spans of a page, each with the line that it begins in; blocks of code are left out."""
        text = re.sub(r"^(?: {4}[^\n]*|```.*?^```)$", "", page.read_text(), flags=re.M | re.S)
        for found in re.finditer(r"`([^`]+)`", text):
            line = text[text.rfind("\n", 0, found.start()) + 1 :].split("\n", 1)[0]
            yield line, " ".join(found[1].split())

    def wrong_clauses(self):
        for page in self.pages:
            for line, span in self.spans(page):
                if found := CITATION.fullmatch(span):
                    clauses = set(found[2].split(", "))
                    if not any(it.has_clauses(found[1], clauses) for it in self.about(page, line)):
                        yield f"{page.relative_to(self.root)}: no clause `{span}`"
            for law in re.findall(r"\blaws? `(\w+)`", page.read_text()):
                if not any(law in it.clauses for it in self.about(page, "")):
                    yield f"{page.relative_to(self.root)}: no law `{law}`"

    def wrong_names(self):
        for page in self.pages:
            for line, span in self.spans(page):
                told = NAME.fullmatch(span) and ("_" in span or span[0].isupper())
                known = span in self.crates or span in self.beside or (self.root / span).exists()
                if told and not known:
                    where = self.crates.values() if page.parent.name == "docs" else self.about(page, line)
                    if not any(it.declares(span) for it in where):
                        yield f"{page.relative_to(self.root)}: no declaration of `{span}`"

    def unnamed_items(self):
        for crate in self.crates.values():
            page = crate.folder / "README.md"
            if not page.is_file():
                yield f"crates/{crate.name}: no README.md"
                continue
            named = set()
            for _, span in self.spans(page):
                named.update(re.findall(r"\w+", span))
            for item in crate.public():
                if item.split("::")[-1] not in named:
                    yield f"crates/{crate.name}/README.md: `{item}` is not named"

    def wrong_paths(self):
        for page in self.pages:
            text = page.read_text()
            for target in LINK.findall(text):
                target, _, anchor = target.partition("#")
                if "://" in target:
                    continue
                file = page.parent / target if target else page
                if not file.exists():
                    yield f"{page.relative_to(self.root)}: no file {target}"
                elif anchor and anchor not in anchors(file):
                    yield f"{page.relative_to(self.root)}: no heading {target}#{anchor}"
            for path in PATH.findall(LINK.sub("", text)):
                if not (self.root / path).exists() and "NAME" not in path and "/out/" not in path:
                    yield f"{page.relative_to(self.root)}: no file {path}"

    def wrong_order(self):
        page = self.root / "docs" / "ARCHITECTURE.md"
        told = []
        for table in re.findall(r"(?:^\|.*\n)+", page.read_text(), re.M):
            rows = re.findall(r"^\| \[(\w+)\]\(\.\./crates/\w+/README\.md\)", table, re.M)
            told += rows
            for row, name in zip(rows, [it for it in self.listed if it in rows]):
                if row != name:
                    yield f"docs/ARCHITECTURE.md: {row} stands where crates.txt has {name}"
                    break
        for name in sorted({*told, *self.listed}):
            if told.count(name) != 1 or name not in self.listed:
                yield f"docs/ARCHITECTURE.md: {name} is told {told.count(name)} times"

    def wrong_picture(self):
        text = (self.root / "docs" / "crates.svg").read_text()
        drawn = set(re.findall(r"<title>(\w+)(?:&#45;&gt;|->)(\w+)</title>", text)) - {("with_code", "laws_alone")}
        arrows = set(find_arrows(read_crates((self.root / "crates.txt").read_text())))
        if drawn != arrows:
            yield f"docs/crates.svg: docs/crates.py draws it anew, since arrows differ: {sorted(drawn ^ arrows)[:3]}"

    def checks(self):
        return [self.wrong_clauses, self.wrong_names, self.unnamed_items, self.wrong_paths, self.wrong_order, self.wrong_picture]


def anchors(page):
    """The anchors of a page's headings."""
    heads = re.findall(r"^#+ (.*)$", page.read_text(), re.M)
    return {re.sub(r"[^\w -]", "", it.lower()).replace(" ", "-") for it in heads}


SMALL = {
    "crates.txt": "low:\nhigh: low\n",
    "crates/low/src/lib.rt": "mod a;\nmod c;\npub use a::{Cup, fill};\n",
    "crates/low/src/c.rt": "pub unsafe extern \"C\" fn pour()\n{}\n",
    "crates/low/src/a.rt": """pub struct Cup {
}
impl Cup {
    pub fn size(&self) -> u8
        ensures value { result }
    {}
}
pub fn fill(cup: &mut Cup)
    ensures full { cup.new }
    ensures kept { cup.new }
{}
""",
    "crates/low/README.md": "`Cup` has a `size` (`Cup::size: value`). `fill` (`fill: full, kept`). C calls `pour`.\n",
    "crates/high/src/lib.rt": "pub mod laws;\n",
    "crates/high/src/laws.rt": "pub fn cups_are_full()\n    ensures { full }\n{}\n",
    "crates/high/README.md": "What is full: law `cups_are_full`.\n",
    "docs/ARCHITECTURE.md": "# Crates\n\n| [low](../crates/low/README.md) | `fill: full` |\n| [high](../crates/high/README.md) | |\n",
    "docs/crates.svg": "<title>high&#45;&gt;low</title>",
    "c/low.h": "int low_pour(void);\n",
    "README.md": "See [the crates](docs/ARCHITECTURE.md#crates), crates/low and `low_pour` in c/low.h.\n",
}
WRONG = [
    ("crates/low/README.md", "full, kept", "full, empty", "no clause `fill: full, empty`"),
    ("crates/low/README.md", "`Cup` has", "`Mug` has", "no declaration of `Mug`"),
    ("crates/low/README.md", "a `size` (`Cup::size: value`)", "a size", "`Cup::size` is not named"),
    ("crates/low/README.md", "C calls `pour`.", "", "`pour` is not named"),
    ("crates/high/README.md", "`cups_are_full`", "cups", "`cups_are_full` is not named"),
    ("README.md", "See ", "By the law `cups_are_round`: see ", "no law `cups_are_round`"),
    ("docs/ARCHITECTURE.md", "| `fill: full` |", "| `fill: value` |", "no clause `fill: value`"),
    ("README.md", "ARCHITECTURE.md#crates", "NOTHING.md", "no file docs/NOTHING.md"),
    ("README.md", "#crates", "#cups", "no heading docs/ARCHITECTURE.md#cups"),
    ("README.md", "crates/low", "crates/middle", "no file crates/middle"),
    ("README.md", "c/low.h", "c/high.h", "no file c/high.h"),
    ("README.md", "`low_pour`", "`high_pour`", "no declaration of `high_pour`"),
    ("crates.txt", "low:\nhigh: low", "high: low\nlow:", "low stands where crates.txt has high"),
    ("docs/ARCHITECTURE.md", "| [high](../crates/high/README.md) | |\n", "", "high is told 0 times"),
    ("crates.txt", "high: low", "high:", "docs/crates.svg: docs/crates.py draws it anew"),
]


def faults_of(files):
    with tempfile.TemporaryDirectory() as folder:
        for name, text in files.items():
            file = Path(folder) / name
            file.parent.mkdir(parents=True, exist_ok=True)
            file.write_text(text)
        return [fault for check in Repository(Path(folder)).checks() for fault in check()]


def selftest():
    """Each wrong document is found, and none in the right ones."""
    results = [("nothing is wrong", faults_of(SMALL) == [])]
    for name, old, new, wanted in WRONG:
        assert old in SMALL[name], old
        faults = faults_of({**SMALL, name: SMALL[name].replace(old, new)})
        results.append((wanted, any(wanted in it for it in faults)))
    return results


def check():
    results = []
    for test in Repository(HERE).checks():
        faults = list(test())
        for it in faults:
            print(it)
        results.append((test.__name__, not faults))
    return results


def main():
    results = selftest() if sys.argv[1:] == ["--selftest"] else check()
    failed = [name for name, passed in results if not passed]
    for name in failed:
        print(f"failed: {name}")
    print(f"{len(results) - len(failed)} passed, {len(failed)} failed")
    return 1 if failed else 0


if __name__ == "__main__":
    sys.exit(main())
