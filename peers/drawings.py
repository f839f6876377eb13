"""Drawings for the peers to write, and what the reader is to say of each: the numbers of its open ring, or the place of
refusal 10."""

import json
import struct
from typing import NamedTuple

HEAD, POINT = 13, 16


class Drawing(NamedTuple):
    wkt: str
    says: object  # of its first two dimensions: a list of numbers, or a place
    deep: bool = False  # has Z or M
    json: str = ""  # GeoJSON, for a peer that takes the drawing in no other form


def bits(numbers):
    """The numbers as 16 hexadecimal digits each."""
    return [struct.pack(">d", number).hex() for number in numbers]


def flat(points):
    """The points as one list of numbers."""
    return [number for point in points for number in point]


def text(name, rings):
    """A polygon, or what else is a list of lists of points, in well-known text."""
    lists = [", ".join(" ".join(map(repr, point)) for point in ring) for ring in rings]
    return f"{name} ({', '.join(f'({points})' for points in lists)})"


def loose(points, says):
    """A polygon of one ring that need not be closed, long enough or finite: GDAL and PostGIS take it from GeoJSON."""
    said = json.dumps({"type": "Polygon", "coordinates": [points]})
    return Drawing(text("POLYGON", [points]), says, json=said)


def number(rng):
    """A coordinate: whole, decimal, any float in bounds, or one at an edge."""
    return rng.choice([
        lambda: float(rng.randint(-1000, 1000)),
        lambda: round(rng.uniform(-5000, 5000), 3),
        lambda: rng.uniform(-1e6, 1e6),
        lambda: rng.uniform(-1, 1) * 2.0 ** rng.randint(-1074, 18),
        lambda: rng.choice([0.0, -0.0, 1e6, -1e6, 5e-324, 1 / 3]),
    ])()


def some(rng, least, most):
    """So many points, drawn between these numbers."""
    return [(number(rng), number(rng)) for _ in range(rng.randint(least, most))]


def closed(points):
    return points + points[:1]


def one_ring(least, most):
    def made(rng):
        points = some(rng, least, most)
        return Drawing(text("POLYGON", [closed(points)]), flat(points))

    return made


def other_zero(rng):
    """The first point has zeros, and the last one the other zeros."""
    (x, y), *rest = some(rng, 3, 40)
    x, y = rng.choice([(0.0, y), (-0.0, y), (x, -0.0), (-0.0, 0.0)])
    last = tuple(-n if n == 0 else n for n in (x, y))
    points = [(x, y), *rest]
    return loose([*points, last], flat(points))


def closed_twice(rng):
    points = closed(some(rng, 3, 255))
    return Drawing(text("POLYGON", [closed(points)]), flat(points))


def deep(name, more):
    """A polygon with so many numbers more to each point."""

    def made(rng):
        points = some(rng, 3, 256)
        longer = [point + tuple(number(rng) for _ in range(more)) for point in points]
        return Drawing(text(f"POLYGON {name}", [closed(longer)]), flat(points), deep=True)

    return made


def holes(rng):
    rings = [closed(some(rng, 3, 20)) for _ in range(rng.randint(2, 4))]
    return Drawing(text("POLYGON", rings), 5)


def multipolygon(rng):
    parts = [text("", [closed(some(rng, 3, 20))]) for _ in range(rng.randint(1, 3))]
    return Drawing(f"MULTIPOLYGON ({','.join(parts)})", 1)


def empty(rng):
    """Of no points at all. It has 9 bytes, whatever its type."""
    names = ["POLYGON", "POLYGON Z", "MULTIPOLYGON", "LINESTRING", "GEOMETRYCOLLECTION"]
    return Drawing(f"{rng.choice(names)} EMPTY", 0)


def no_polygon(rng):
    (x, y), *line = some(rng, 4, 9)
    return Drawing(
        rng.choice([
            "POINT EMPTY",
            f"POINT ({x} {y})",
            text("MULTILINESTRING", [line]),
            text("LINESTRING", [line])[:-1].replace("((", "("),
            f"GEOMETRYCOLLECTION ({text('POLYGON', [closed(line)])})",
        ]),
        1,
    )


def kin(rng):
    """A triangle, a surface or a polygon of curves: each has a type of its own."""
    ring = text("", [closed([(0.0, 0.0), (4.0, number(rng)), (1.0, 3.0)])])
    name = rng.choice(["TRIANGLE", "CURVEPOLYGON", "POLYHEDRALSURFACE", "TIN"])
    return Drawing(f"{name} ({ring})" if name in ("POLYHEDRALSURFACE", "TIN") else name + ring, 1)


def too_many(rng):
    points = some(rng, 257, rng.choice([257, 600]))
    return Drawing(text("POLYGON", [closed(points)]), 9)


def too_few(rng):
    return loose(closed(some(rng, 2, 2)), 9)


def not_closed(rng):
    points = some(rng, 4, 257)
    x, y = points[0]
    points[-1] = (x, 1.0 if y != 1.0 else 2.0)
    return loose(points, HEAD + POINT * (len(points) - 1))


def too_large(rng):
    points, place = astray(rng, 0, [1000000.0000000001, -1000001.0, 1e7, -1e300])
    return Drawing(text("POLYGON", [points]), place)


def not_finite(rng):
    """The first point is finite, since NaN closes no ring."""
    return loose(*astray(rng, 2, [float("nan"), float("inf"), float("-inf")]))


def astray(rng, first, numbers):
    """A closed ring in which one or two coordinates, from the first on, are some of these numbers; and the place of the
    first of them."""
    points = [list(point) for point in some(rng, 3, 40)]
    at = rng.sample(range(first, 2 * len(points)), rng.randint(1, 2))
    for i in at:
        points[i // 2][i % 2] = rng.choice(numbers)
    return closed(points), HEAD + 8 * min(at)


KINDS = {
    "triangle": one_ring(3, 3),
    "4 to 12 vertices": one_ring(4, 12),
    "13 to 255 vertices": one_ring(13, 255),
    "256 vertices": one_ring(256, 256),
    "closed by the other zero": other_zero,
    "closed twice": closed_twice,
    "Z": deep("Z", 1),
    "M": deep("M", 1),
    "ZM": deep("ZM", 2),
    "holes": holes,
    "multipolygon": multipolygon,
    "empty": empty,
    "no polygon": no_polygon,
    "kin of polygons": kin,
    "too many points": too_many,
    "too few points": too_few,
    "not closed": not_closed,
    "out of bounds": too_large,
    "not finite": not_finite,
}
