#!/usr/bin/env python3
"""Draws the pictures of docs/concepts.md from the replies of the program.

    docs/pictures/draw.py [PROGRAM]

PROGRAM is the built program, by default crates/qcube/out/qcube. The table is that of crates/worked_runs/data/runs/store, before and after
its batch. The script asks the program which cells there are, and for the class and the aggregate of each. The nodes and links of the tree
follow from that, as docs/concepts.md says."""
import csv, itertools, os, subprocess, sys, tempfile
from html import escape

HERE = os.path.dirname(os.path.realpath(__file__))
TOP = os.path.dirname(os.path.dirname(HERE))
STORE = f"{TOP}/crates/worked_runs/data/runs/store"
PROGRAM = os.path.abspath(sys.argv[1]) if len(sys.argv) > 1 else f"{TOP}/crates/qcube/out/qcube"
DIMS = 3
COLOURS = ["#4e79a7", "#f28e2b", "#59a14f", "#e15759", "#b07aa1", "#76b7b2", "#edc948", "#9c755f", "#ff9da7"]


def ask(lines):
    """The records of the replies to these lines."""
    with tempfile.NamedTemporaryFile("w", suffix=".script") as script:
        script.write("".join(f"{line}\n" for line in lines))
        script.flush()
        ran = subprocess.run([PROGRAM, "run", "s.schema", script.name], cwd=STORE, check=True, capture_output=True, text=True)
    return list(csv.reader(ran.stdout.splitlines()))


class Cube:
    """The covered cells, each with the upper bound of its class, and the figures of the classes."""

    def __init__(self, before):
        shapes = list(itertools.product("*?", repeat=DIMS))
        replies = ask([*before, *(f"range {','.join(shape)}" for shape in shapes)])
        self.cells = [tuple(it[2 : 2 + DIMS]) for it in replies if it[0] == "cell"]
        self.cells += [("*",) * DIMS] * (("*",) * DIMS not in self.cells)
        replies = ask([*before, *(f"bounds {','.join(cell)}" for cell in self.cells)])
        classes = [it for it in replies if it[0] == "class"]
        self.upper = {cell: tuple(it[2 : 2 + DIMS]) for cell, it in zip(self.cells, classes)}
        self.figures = {tuple(it[2 : 2 + DIMS]): it[2 + DIMS : 6 + DIMS] for it in classes}

    def closure(self, cell):
        return self.upper.get(cell)


def name(cell):
    return ",".join(cell)


def values(cell):
    return sum(it != "*" for it in cell)


def generalizes(c, d):
    return all(a in ("*", b) for a, b in zip(c, d))


def picture(path, width, height, parts):
    head = f'<svg xmlns="http://www.w3.org/2000/svg" viewBox="0 0 {width} {height}" width="{width}" height="{height}" font-family="sans-serif" font-size="13">'
    marker = '<defs><marker id="arrow" viewBox="0 0 8 8" refX="8" refY="4" markerWidth="7" markerHeight="7" orient="auto"><path d="M0,0 L8,4 L0,8 z" fill="#888"/></marker></defs>'
    with open(path, "w") as file:
        file.write("\n".join([head, marker, f'<rect width="{width}" height="{height}" fill="white"/>', *parts, "</svg>", ""]))


def text(x, y, words, **more):
    style = "".join(f' {key.replace("_", "-")}="{value}"' for key, value in more.items())
    return f'<text x="{x:.0f}" y="{y:.0f}" text-anchor="middle"{style}>{escape(words)}</text>'


def hull(points):
    """The corners of the convex hull."""
    points = sorted(set(points))
    if len(points) < 3:
        return points

    def half(points):
        found = []
        for p in points:
            while len(found) > 1 and (found[-1][0] - found[-2][0]) * (p[1] - found[-2][1]) <= (found[-1][1] - found[-2][1]) * (p[0] - found[-2][0]):
                found.pop()
            found.append(p)
        return found

    return half(points)[:-1] + half(points[::-1])[:-1]


def draw_lattice(cube, path):
    """All covered cells by how many values they have, each class in a colour of its own, its upper bound in bold."""
    bottom = sorted({u for u in cube.figures if values(u) == DIMS}, reverse=True)
    places = {u: [k for k, b in enumerate(bottom) if generalizes(u, b)] for u in cube.figures}
    order = sorted(cube.figures, key=lambda u: (sum(places[u]) / len(places[u]), values(u), u))
    at = {}
    for level in range(DIMS + 1):
        row = sorted((c for c in cube.cells if values(c) == level), key=lambda c: (order.index(cube.upper[c]), c))
        for k, cell in enumerate(row):
            at[cell] = 60 + (k + 0.5) * 840 / len(row), 60 + level * 110
    parts = []
    for k, u in enumerate(order):
        corners = hull([at[c] for c in cube.cells if cube.upper[c] == u])
        shape = " ".join(f"{x:.0f},{y:.0f}" for x, y in corners)
        parts.append(f'<polygon points="{shape}" fill="{COLOURS[k]}" stroke="{COLOURS[k]}" stroke-width="56" stroke-linejoin="round" stroke-linecap="round" opacity="0.3"/>')
    for c, d in itertools.product(cube.cells, repeat=2):
        if values(d) == values(c) + 1 and generalizes(c, d):
            (x, y), (z, w) = at[c], at[d]
            parts.append(f'<line x1="{x:.0f}" y1="{y + 8:.0f}" x2="{z:.0f}" y2="{w - 16:.0f}" stroke="#bbb"/>')
    for cell, (x, y) in at.items():
        is_upper = cube.upper[cell] == cell
        parts.append(text(x, y, name(cell), font_weight="bold" if is_upper else "normal"))
        if is_upper:
            count, total = cube.figures[cell][:2]
            parts.append(text(x, y + 15, f"{count} rows, sum {total}" if count != "1" else f"1 row, {total}", font_size=10, fill="#444"))
    picture(path, 960, 450, parts)


class Tree:
    """The canonical tree: its nodes, the forced children, and the links with their labels."""

    def __init__(self, cube):
        self.cube = cube
        prefixes = {tuple(u[:k]) + ("*",) * (DIMS - k) for u in cube.figures for k in range(DIMS + 1)}
        self.nodes = sorted(prefixes, key=lambda c: [(it != "*", it) for it in c])
        self.parent, self.forced, self.links = {}, set(), []
        for node in self.nodes:
            depth = max((k + 1 for k in range(DIMS) if node[k] != "*"), default=0)
            if depth:
                self.parent[node] = tuple(node[: depth - 1]) + ("*",) * (DIMS - depth + 1)
            upper = cube.closure(node)
            end = next((k for k in range(depth, DIMS) if upper[k] != "*"), DIMS)
            if end < DIMS:
                self.forced.add(tuple(upper[: end + 1]) + ("*",) * (DIMS - end - 1))
            for k in range(depth, end):
                for value in sorted({c[k] for c in cube.cells} - {"*"}):
                    found = cube.closure(node[:k] + (value,) + node[k + 1 :])
                    target = found and tuple(found[: k + 1]) + ("*",) * (DIMS - k - 1)
                    if target and target[:k] != node[:k]:
                        self.links.append((node, target, value))


def draw_tree(tree, path, other=None):
    """A tree from the root down, its links dashed; what isn't in the other tree, or not the same there, is marked."""
    at, leaves = {}, itertools.count()
    children = {n: [m for m in tree.nodes if tree.parent.get(m) == n] for n in tree.nodes}

    def place(node, depth):
        inner = [place(child, depth + 1) for child in children[node]]
        x = sum(inner) / len(inner) if inner else 80 + 150 * next(leaves)
        at[node] = x, 40 + 110 * depth
        return x

    place(("*",) * DIMS, 0)
    width, height = max(x for x, _ in at.values()) + 90, max(y for _, y in at.values()) + 50
    parts = []
    for node, above in tree.parent.items():
        (x, y), (z, w) = at[above], at[node]
        parts.append(f'<line x1="{x:.0f}" y1="{y + 22:.0f}" x2="{z:.0f}" y2="{w - 20:.0f}" stroke="#333" stroke-width="{3 if node in tree.forced else 1.2}"/>')
    for node, target, value in tree.links:
        (x, y), (z, w) = at[node], at[target]
        side = 46 if z > x else -46
        is_new = other is not None and (node, target, value) not in other.links
        colour = "#c0392b" if is_new else "#888"
        parts.append(f'<path d="M{x + side:.0f},{y:.0f} Q{(x + z) / 2 + side:.0f},{min(y, w) + 20:.0f} {z:.0f},{w - 20:.0f}" fill="none" stroke="{colour}" stroke-dasharray="5 4" marker-end="url(#arrow)"/>')
        parts.append(text((x + side + 2 * ((x + z) / 2 + side) + z) / 4, (y + 2 * (min(y, w) + 20) + w - 20) / 4 - 4, value, fill=colour, font_size=11))
    for node, (x, y) in at.items():
        figures = tree.cube.figures.get(node)
        is_new = other is not None and node not in other.nodes
        is_changed = other is not None and not is_new and figures != other.cube.figures.get(node)
        fill = "#d5f0d5" if is_new else "#fdebd0" if is_changed else "#eaf1fb" if figures else "white"
        parts.append(f'<rect x="{x - 46:.0f}" y="{y - 19:.0f}" width="92" height="40" rx="9" fill="{fill}" stroke="#555"/>')
        parts.append(text(x, y - 2 if figures else y + 5, name(node), font_weight="bold" if figures else "normal"))
        if figures:
            parts.append(text(x, y + 13, " ".join(figures), font_size=11, fill="#444"))
    picture(path, round(width), round(height), parts)


before = Cube(["load base.csv"])
after = Cube(["load base.csv", "apply monday.csv"])
draw_lattice(before, f"{HERE}/lattice.svg")
draw_tree(Tree(before), f"{HERE}/tree.svg")
draw_tree(Tree(after), f"{HERE}/tree-after.svg", Tree(before))
