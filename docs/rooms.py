#!/usr/bin/env python3
"""Draws the crates of crates.txt as docs/rooms.svg, a band for each group, with each crate above those that it depends on.

    docs/rooms.py             writes docs/rooms.svg
    docs/rooms.py --check     exits with status 1 if docs/rooms.svg does not match crates.txt

A line joins two crates of one group, and is left out if a longer path joins them. A crate may use any crate of a lower band: which ones is
the title of its box, which a browser shows under the pointer. Crates that only tests use are left out, and so are the toolchain's.
"""
import pathlib
import sys

TOP = pathlib.Path(__file__).resolve().parent.parent
PICTURE = TOP / "docs" / "rooms.svg"
# The sizes of a box, and of the room for one.
WIDTH, HEIGHT, COLUMN, ROW, MARGIN = 124, 30, 148, 58, 16
# The room for the headings at the left, and how far a band reaches above and below its boxes.
LABELS, PAD = 112, 11
PROGRAMS = ("rvfleet", "rvtest")
HEAD = """<svg xmlns="http://www.w3.org/2000/svg" width="{0}" height="{1}" viewBox="0 0 {0} {1}" role="img"
     aria-label="The crates by group, each above those that it depends on">
<style>
  text {{ font: 13px sans-serif; text-anchor: middle; fill: #1b1b1b }}
  rect {{ fill: #eef3f8; stroke: #44617c }}
  .program {{ fill: #fbe9c6; stroke: #8a6d1d }}
  .band {{ fill: #f4f4f0; stroke: none }}
  .heading {{ font: bold 13px sans-serif; text-anchor: start; fill: #44617c }}
  path {{ fill: none; stroke: #5b6b7a; stroke-width: 1.4 }}
</style>
<rect width="{0}" height="{1}" style="fill: #ffffff; stroke: none"/>
"""


def groups_of(text):
    """The crates of the programs under the headings of crates.txt: the names of each group, by its heading. A comment is not a heading."""
    groups, heading = {}, ""
    for line in text[: text.index("\nsamples:")].split("\n"):
        if line.startswith("# ") and not line.endswith("."):
            heading = line.removeprefix("# ")
        elif line and not line.startswith("#"):
            groups.setdefault(heading, []).append(line.split(":")[0])
    return groups


def needs_of(text, groups):
    """Each crate of the programs with those of the repository that it depends on."""
    names = {name for group in groups.values() for name in group}
    lines = [line.partition(":") for line in text.split("\n")]
    return {name: [near for near in nears.split() if near in names] for name, _, nears in lines if name in names}


def below(needs, name):
    """All crates that a crate depends on, directly or not."""
    return {reached for near in needs[name] for reached in (near, *below(needs, near))}


def edges_of(needs, names):
    """Each crate of a group with those of the group to which a line leads from it."""
    return {
        name: [near for near in needs[name] if near in names and not any(near in below(needs, other) for other in needs[name])]
        for name in names
    }


def layers_of(edges):
    """The layer of each crate of a group: one above the highest to which a line leads from it."""
    heights = {}
    for name, nears in edges.items():
        heights[name] = 1 + max((heights[near] for near in nears), default=-1)
    return heights


def chains_of(edges, heights):
    """The path of each edge: its ends, and a bend on each layer between them."""
    return [
        [name, *((name, near, height) for height in range(heights[name] - 1, heights[near], -1)), near]
        for name, nears in edges.items()
        for near in nears
    ]


def ordered(heights, chains):
    """The layers, each with its boxes and bends in an order that has few crossings."""
    layers = [[] for _ in range(max(heights.values()) + 1)]
    for name, height in heights.items():
        layers[height].append(name)
    beside = {}
    for chain in chains:
        for bend in chain[1:-1]:
            layers[bend[2]].append(bend)
        for upper, lower in zip(chain, chain[1:]):
            beside.setdefault(upper, []).append(lower)
            beside.setdefault(lower, []).append(upper)
    best = layers
    for _ in range(40):
        layers = swept(layers, beside)
        layers = swept(layers[::-1], beside)[::-1]
        best = min(best, layers, key=lambda found: crossings(found, chains))
    return best


def swept(layers, beside):
    """The layers, of which each is sorted by where its neighbours stand on the one before."""
    done = [layers[0]]
    for layer in layers[1:]:
        places = {item: place / max(1, len(done[-1]) - 1) for place, item in enumerate(done[-1])}

        def middle(item, places=places, layer=layer):
            """Where the neighbours stand, between 0 and 1; without one, where the item stood."""
            near = [places[other] for other in beside.get(item, []) if other in places]
            return sum(near) / len(near) if near else layer.index(item) / max(1, len(layer) - 1)

        done.append(sorted(layer, key=middle))
    return done


def crossings(layers, chains):
    """How many pairs of lines cross."""
    place = {item: at for layer in layers for at, item in enumerate(layer)}
    height = {item: at for at, layer in enumerate(layers) for item in layer}
    lines = {}
    for chain in chains:
        for upper, lower in zip(chain, chain[1:]):
            lines.setdefault(height[lower], []).append((place[upper], place[lower]))
    return sum((a[0] - b[0]) * (a[1] - b[1]) < 0 for found in lines.values() for a in found for b in found) // 2


def placed(layers, chains):
    """The middle of each box and bend in its band: as near to its neighbours as its layer's order allows."""
    columns = {item: float(at) for layer in layers for at, item in enumerate(layer)}
    beside = {}
    for chain in chains:
        for upper, lower in zip(chain, chain[1:]):
            beside.setdefault(upper, []).append(lower)
            beside.setdefault(lower, []).append(upper)
    for _ in range(60):
        for layer in layers:
            near = [[columns[other] for other in beside.get(item, [item])] for item in layer]
            wanted = [sum(found) / len(found) for found in near]
            for item, column in zip(layer, apart(layer, wanted)):
                columns[item] = column
    least, top = min(columns.values()), len(layers) - 1
    height = {item: at for at, layer in enumerate(layers) for item in layer}
    return {
        item: (WIDTH / 2 + (column - least) * COLUMN, PAD + HEIGHT / 2 + (top - height[item]) * ROW)
        for item, column in columns.items()
    }


def room(left, right):
    """How far two neighbours of a layer stand apart at least: a bend takes less than a box."""
    return (0.5 if isinstance(left, str) else 0.12) + (0.5 if isinstance(right, str) else 0.12)


def apart(layer, wanted):
    """Columns near those that are wanted, in which nothing stands on its neighbour."""
    right, left = list(wanted), list(wanted)
    for at in range(1, len(layer)):
        right[at] = max(right[at], right[at - 1] + room(layer[at - 1], layer[at]))
    for at in range(len(layer) - 2, -1, -1):
        left[at] = min(left[at], left[at + 1] - room(layer[at], layer[at + 1]))
    return [(a + b) / 2 for a, b in zip(right, left)]


def drawing(text):
    """The picture of a crates.txt: the bands of its groups, the first at the bottom."""
    groups = groups_of(text)
    needs = needs_of(text, groups)
    layouts = {heading: layout_of(needs, names) for heading, names in reversed(groups.items())}
    width = max(x for _, places in layouts.values() for x, _ in places.values()) + WIDTH / 2
    top, parts = MARGIN, []
    for heading, (chains, places) in layouts.items():
        height = max(y for _, y in places.values()) + HEIGHT / 2 + PAD
        left = 2 * MARGIN + LABELS + (width - WIDTH / 2 - max(x for x, _ in places.values())) / 2
        shifted = {item: (x + left, y + top) for item, (x, y) in places.items()}
        parts.append(band(heading, top, width + LABELS + 2 * MARGIN, height))
        parts += [f'<path d="{path_of(chain, shifted)}"/>' for chain in chains]
        parts += [box(name, needs[name], *shifted[name]) for name in groups[heading]]
        top += height + MARGIN / 2
    size = round(width + LABELS + 4 * MARGIN), round(top + MARGIN / 2)
    return HEAD.format(*size) + "\n".join(parts) + "\n</svg>\n"


def layout_of(needs, names):
    """The lines of a group, and where its boxes and bends stand in its band."""
    edges = edges_of(needs, names)
    heights = layers_of(edges)
    chains = chains_of(edges, heights)
    return chains, placed(ordered(heights, chains), chains)


def band(heading, top, width, height):
    """The band of a group, and its heading at the left."""
    return (
        f'<rect class="band" x="{MARGIN}" y="{top:.0f}" width="{width:.0f}" height="{height:.0f}" rx="5"/>\n'
        f'<text class="heading" x="{2 * MARGIN - 4}" y="{top + 22:.0f}">{heading}</text>'
    )


def path_of(chain, places):
    """The line from the lower side of its upper box to the upper side of its lower one, straight down beside the boxes that it passes."""
    points = [places[item] for item in chain]
    path = f"M{points[0][0]:.0f} {points[0][1] + HEIGHT / 2:.0f}"
    for (x, y), (to_x, to_y) in zip(points, points[1:]):
        half, end = (y + to_y) / 2, to_y - HEIGHT / 2
        path += f" C{x:.0f} {half:.0f} {to_x:.0f} {half:.0f} {to_x:.0f} {end:.0f}"
        path += f" L{to_x:.0f} {to_y + HEIGHT / 2:.0f}" if (to_x, to_y) != points[-1] else ""
    return path


def box(name, needs, x, y):
    """A crate's box with its name, and the crates that it depends on as its title."""
    kind = ' class="program"' if name in PROGRAMS else ""
    corner = f'x="{x - WIDTH / 2:.0f}" y="{y - HEIGHT / 2:.0f}"'
    title = f"<title>{name}: {' '.join(needs)}</title>"
    return (
        f'<rect{kind} {corner} width="{WIDTH}" height="{HEIGHT}" rx="5">{title}</rect>\n'
        f'<text x="{x:.0f}" y="{y + 5:.0f}">{name}</text>'
    )


def main():
    """Writes the picture, or compares it."""
    picture = drawing((TOP / "crates.txt").read_text(encoding="utf-8"))
    if sys.argv[1:] == ["--check"]:
        is_same = PICTURE.exists() and PICTURE.read_text(encoding="utf-8") == picture
        if not is_same:
            print("docs/rooms.py: docs/rooms.svg does not match crates.txt: run docs/rooms.py", file=sys.stderr)
        return 0 if is_same else 1
    PICTURE.write_text(picture, encoding="utf-8")
    return 0


if __name__ == "__main__":
    sys.exit(main())
