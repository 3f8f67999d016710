#!/usr/bin/env python3
"""Draws the crates of crates.txt as a graph, in docs/crates.svg, and their layers alone, in docs/layers.svg.

A layer is a group of crates.txt, under its comment. An arrow goes from a crate or a layer to one that it uses, unless a way over
others leads there. A crate of definitions and laws alone has a dashed frame. It needs `dot`, of the package graphviz.

usage: docs/crates.py
"""

import re
import subprocess
import sys
from itertools import cycle
from pathlib import Path

ROOT = Path(__file__).resolve().parent.parent
COLORS = [
    "#cfe0f5", "#f6ddb0", "#cdebcd", "#e2cff0", "#f7cccc", "#bfe6e6", "#eeeeaa", "#dcc8b4", "#b8cfe0", "#f2c4d6", "#d9d9d9", "#c9e8a8", "#f0f0f0",
]


def read_groups(text):
    """The groups of crates.txt: each the comment before it, and its crates with those of the repository that they name."""
    groups, title = [], ""
    for line in text.splitlines():
        if found := re.match(r"# (.*)", line):
            title = found[1]
        elif found := re.match(r"(\w+)(?: staticlib)?:(.*)", line):
            if not groups or groups[-1][0] != title:
                groups.append((title, {}))
            groups[-1][1][found[1]] = found[2].split()
    names = {name for _, crates in groups for name in crates}
    return [(title, {name: [it for it in below if it in names] for name, below in crates.items()}) for title, crates in groups]


def read_crates(text):
    return {name: below for _, crates in read_groups(text) for name, below in crates.items()}


def find_arrows(crates):
    """The pairs of a crate and one that it stands on, without those that another way leads to."""
    below = {}
    for name in crates:
        collect_below(crates, name, below)
    return [(name, it) for name in crates for it in crates[name] if not any(it in below[other] for other in crates[name])]


def collect_below(crates, name, below):
    if name not in below:
        below[name] = set()
        for it in crates[name]:
            below[name] |= {it} | collect_below(crates, it, below)
    return below[name]


def has_code(folder):
    return any(it.stem not in ("lib", "laws", "examples") for it in (folder / "src").rglob("*.rt"))


HEAD = [
    "digraph crates {",
    'nodesep=0.12; ranksep=0.35; fontname="sans-serif"; fontsize=11;',
    'node [shape=box, height=0.28, margin="0.07,0.03", fontname="sans-serif", fontsize=11];',
    'edge [arrowsize=0.5, color="#777777"];',
]

LEGEND = [
    'subgraph cluster_legend { label="legend"; style="dashed"; color="#777777";',
    'with_code [label="a crate with code", style="filled", fillcolor="#ffffff"];',
    'laws_alone [label="definitions and laws alone", style="filled,dashed", fillcolor="#ffffff"];',
    'with_code -> laws_alone [label="uses", fontname="sans-serif", fontsize=10]; }',
]


def write_crates(text):
    """Each layer a box with its crates inside."""
    out = [*HEAD]
    for at, ((title, crates), color) in enumerate(zip(read_groups(text), cycle(COLORS))):
        out.append(f'subgraph cluster_{at} {{ label="{title}"; style="filled,rounded"; color="{color}";')
        for name in crates:
            style = "filled" if has_code(ROOT / "crates" / name) else "filled,dashed"
            out.append(f'{name} [style="{style}", fillcolor="#ffffff", URL="../crates/{name}/README.md"];')
        out.append("}")
    out += [f"{name} -> {below};" for name, below in find_arrows(read_crates(text))]
    return "\n".join([*out, *LEGEND, "}", ""])


def write_layers(text):
    """The layers alone, each with the number of its crates."""
    groups = read_groups(text)
    layer_of = {name: at for at, (_, crates) in enumerate(groups) for name in crates}
    layers = {at: sorted({layer_of[it] for used in crates.values() for it in used} - {at}) for at, (_, crates) in enumerate(groups)}
    out = [*HEAD]
    for (at, (title, crates)), color in zip(enumerate(groups), cycle(COLORS)):
        out.append(f'layer_{at} [label="{title} ({len(crates)})", style="filled,rounded", color="{color}", fillcolor="{color}"];')
    out += [f"layer_{at} -> layer_{below};" for at, below in find_arrows(layers)]
    return "\n".join([*out, "}", ""])


def draw(dot, file):
    drawn = subprocess.run(["dot", "-Tsvg"], input=dot, capture_output=True, text=True, check=True).stdout
    file.write_text(re.sub(r"<!--.*?-->\n?", "", drawn, flags=re.S))


def main():
    text = (ROOT / "crates.txt").read_text()
    try:
        draw(write_crates(text), ROOT / "docs" / "crates.svg")
        draw(write_layers(text), ROOT / "docs" / "layers.svg")
    except FileNotFoundError:
        print("docs/crates.py: the command dot is missing; it is part of graphviz", file=sys.stderr)
        return 1
    return 0


if __name__ == "__main__":
    sys.exit(main())
