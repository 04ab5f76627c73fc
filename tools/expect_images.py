#!/usr/bin/env python3
"""Writes crates/images/stdin and crates/images/stdout: images, and what opening each must print.

Written from document 01 alone, and from no code of this project. Only the checksum knows how the graph's tables hold
an entry, as rules/specs/Graph.antt says it: a vertex as layer + virtual * 2^16, an edge as left + right * 2^8 +
condition * 2^16, a unit as edge + vertex * 2^10 + kind * 2^18. Run it from the repository's top.
"""
import random
import struct

NONE = 65535


# ---- what document 01 says of the bytes

class Refused(Exception):
    pass


def check(holds, number):
    if not holds:
        raise Refused(number)


def open_image(data):
    check(len(data) >= 12, 1)
    mark, version, flags, nv, ne, nu = struct.unpack_from("<3sHBHHH", data)
    check(mark == b"DCT" and version == 1 and flags < 4, 1)
    check(1 <= nv <= 256, 2)
    check(ne <= 1024, 3)
    check(nu <= 1024, 4)
    start = 12 + 3 * nv + 10 * ne + 5 * nu
    check(len(data) >= start, 5)
    fusion, offloading = flags & 1, flags & 2
    vertices, edges, weights, units = [], [], [], []
    for virtual, layer in struct.iter_unpack("<BH", data[12:12 + 3 * nv]):
        check(virtual <= 1 and (layer <= 32767 or layer == NONE), 6)
        vertices.append((layer if fusion else NONE, virtual))
    degree = [0] * nv
    for left, right, weight, condition in struct.iter_unpack("<HHIH", data[12 + 3 * nv:start - 5 * nu]):
        check(left < nv and right < nv and left != right, 7)
        check(weight <= 1000000, 8)
        check(condition in (NONE, left, right), 9)
        degree[left] += 1
        degree[right] += 1
        check(degree[left] <= 16 and degree[right] <= 16, 10)
        edges.append((left, right, condition if fusion else NONE))
        weights.append(weight)
    for kind, edge, vertex in struct.iter_unpack("<BHH", data[start - 5 * nu:start]):
        check(kind <= 1 and edge < ne, 11)
        check(vertex == NONE if kind == 0 else vertex in edges[edge][:2], 11)
        units.append((edge, 0 if kind == 0 else vertex, kind))
    units += [(e, c, 2) for e, (_, _, c) in enumerate(edges) if c != NONE]
    if not offloading:
        units = []
    return vertices, edges, weights, units, nu, start


def checksum(vertices, edges, weights, units, own_units):
    tables = [
        ([layer + virtual * 65536 for layer, virtual in vertices], 256),
        ([left + right * 256 + condition * 65536 for left, right, condition in edges], 1024),
        (weights, 1024),
        ([edge + vertex * 1024 + kind * 262144 for edge, vertex, kind in units], 2048),
    ]
    total = own_units
    for words, size in tables:
        for word in words + [0] * (size - len(words)):
            total = (total * 1000003 + word) % 2 ** 32
    return total


def line(data):
    try:
        vertices, edges, weights, units, own_units, start = open_image(data)
    except Refused as refused:
        return f"bad {refused}"
    total = checksum(vertices, edges, weights, units, own_units)
    return f"DCT {len(vertices)} {len(edges)} {len(units)} {start} {total}"


# ---- images

class Image:
    def __init__(self, flags, vertices, edges, units):
        self.flags, self.vertices, self.edges, self.units = flags, list(vertices), list(edges), list(units)

    def data(self, **changed):
        head = {"mark": b"DCT", "version": 1, "flags": self.flags, "nv": len(self.vertices), "ne": len(self.edges), "nu": len(self.units)}
        head.update(changed)
        out = head["mark"] + struct.pack("<HBHHH", head["version"], head["flags"], head["nv"], head["ne"], head["nu"])
        out += b"".join(struct.pack("<BH", *v) for v in self.vertices)
        out += b"".join(struct.pack("<HHIH", *e) for e in self.edges)
        return out + b"".join(struct.pack("<BHH", *u) for u in self.units)

    def but(self, part, index, record):
        """The same image with one record replaced, or added where the index is past the last."""
        copy = Image(self.flags, self.vertices, self.edges, self.units)
        records = getattr(copy, part)
        records[index:index + 1] = [record]
        return copy


def small(flags):
    """Four vertices and five edges, two of them parallel, with a record of each shape."""
    return Image(
        flags,
        [(0, NONE), (1, 0), (0, 32767), (1, NONE)],
        [(0, 1, 4, 1), (1, 2, 0, NONE), (2, 3, 1000000, 2), (3, 2, 7, NONE), (0, 3, 65536, 0)],
        [(0, 0, NONE), (1, 0, 1), (1, 2, 3), (0, 4, NONE)],
    )


def ring(k):
    """The ends of edge k: 1,024 such edges give each of 256 vertices eight."""
    return k % 256, (k + 1 + k // 256) % 256


def large(flags):
    rng = random.Random(1)
    vertices = [(rng.randrange(2), rng.choice([NONE, 0, 32767, rng.randrange(32768)])) for _ in range(256)]
    edges = []
    for k in range(1024):
        left, right = ring(k)
        edges.append((left, right, rng.choice([0, 1000000, rng.randrange(1000001)]), rng.choice([left, right])))
    units = [(0, rng.randrange(1024), NONE) if k % 3 else (1, k, rng.choice(edges[k][:2])) for k in range(1024)]
    return Image(flags, vertices, edges, units)


def star(others, at_end):
    """Vertex 0 with 17 edges, its 17th the last of all; `others` edges elsewhere stand before that last one."""
    spokes = [(0, 1 + k, 1, NONE) if k % 2 else (1 + k, 0, 1, NONE) for k in range(17)]
    away = [(18 + k % 238, 18 + (k + 1 + k // 238) % 238, 1, NONE) for k in range(others)]
    edges = spokes[:16] + away + spokes[16:] if at_end else away + spokes
    return Image(0, [(0, NONE)] * 256, edges, [])


def cases():
    for flags in range(4):
        good = small(flags)
        yield good.data()
        yield good.data() + bytes(range(50))
        for length in range(len(good.data())):
            prefix = good.data()[:length]
            assert line(prefix) == ("bad 1" if length < 12 else "bad 5")
            yield prefix
    good, most = small(3), large(3)
    # 1
    for mark in (b"CCT", b"DDT", b"DCU", b"dct"):
        yield good.data(mark=mark)
    for version in (0, 2, 256, 257, 65535):
        yield good.data(version=version)
    for flags in (4, 5, 7, 128, 255):
        yield good.data(flags=flags)
    # 2, 3, 4, and each before the next
    for nv in (0, 257, 65535):
        yield good.data(nv=nv)
        yield good.data(nv=nv, ne=1025, nu=1025)
    for ne in (1025, 65535):
        yield good.data(ne=ne)
        yield good.data(ne=ne, nu=1025)
    for nu in (1025, 65535):
        yield good.data(nu=nu)
    yield good.data(mark=b"DCX", nv=0)
    # 5 before 6
    yield good.but("vertices", 0, (2, 0)).data()[:-1]
    yield Image(0, [(0, NONE)], [], []).data()
    yield Image(3, [(1, 5)], [], []).data(nv=256, ne=1024, nu=1024)
    for flags in range(4):
        yield large(flags).data()
    yield most.data()[:-1]
    yield most.data() + b"\0"
    # 6: each value that is out of bounds or just inside, first and last
    for record in ((2, NONE), (255, NONE), (0, 32768), (1, 65534), (1, 32767), (0, NONE)):
        yield good.but("vertices", 0, record).data()
        yield good.but("vertices", 3, record).data()
    yield most.but("vertices", 255, (0, 32768)).data()
    yield most.but("vertices", 255, (2, 0)).but("edges", 0, (0, 0, 0, NONE)).data()
    # 7, 8, 9: first and last
    last = len(good.edges) - 1
    bad_edges = [
        (4, 0, 1, NONE), (0, 4, 1, NONE), (65535, 0, 1, NONE), (0, 256, 1, NONE), (2, 2, 1, NONE),
        (0, 1, 1000001, NONE), (0, 1, 2 ** 32 - 1, NONE), (0, 1, 1000000, NONE), (0, 1, 2 ** 20, 0),
        (0, 1, 1, 2), (0, 1, 1, 65534), (0, 1, 1, 256), (0, 1, 1, 1),
        (4, 0, 1000001, 2), (0, 1, 1000001, 2),
    ]
    for flags in (0, 3):
        for record in bad_edges:
            yield small(flags).but("edges", 0, record).data()
            yield small(flags).but("edges", last, record).data()
    left, right = ring(1023)
    for record in ((256, right, 0, NONE), (left, left, 0, NONE), (left, right, 1000001, NONE), (left, right, 0, right ^ 1)):
        yield most.but("edges", 1023, record).data()
    yield good.but("edges", 0, (0, 1, 1, 2)).but("edges", 1, (1, 1, 1, NONE)).data()
    yield good.but("edges", last, (1, 1, 1, NONE)).but("units", 0, (2, 0, 0)).data()
    # 10: sixteen, the seventeenth at its first and last place, at either end, after 9 and before 11
    for others, at_end in ((0, True), (1007, True), (1007, False)):
        yield star(others, at_end).data()
    for seventeenth in ((0, 200, 1, NONE), (200, 0, 1, NONE)):
        yield star(0, True).but("edges", 16, seventeenth).data()
    yield Image(0, [(0, NONE)] * 2, [(0, 1, 1, NONE)] * 16, []).data()
    yield Image(0, [(0, NONE)] * 2, [(0, 1, 1, NONE)] * 17, []).data()
    yield Image(0, [(0, NONE)] * 2, [(0, 1, 1, NONE)] * 16 + [(0, 1, 1, 7)], []).data()
    yield Image(0, [(0, NONE)] * 2, [(0, 1, 1, NONE)] * 17, [(2, 0, 0)]).data()
    sixteen = star(0, True)
    sixteen.edges.pop()
    yield sixteen.data()
    # 11: first and last, also where units are ignored
    bad_units = [(2, 0, NONE), (255, 0, NONE), (0, 5, NONE), (1, 5, 0), (0, 65535, NONE), (0, 0, 0), (0, 0, 65534),
                 (1, 0, 2), (1, 0, NONE), (1, 0, 0), (1, 4, 3)]
    for flags in (1, 3):
        for record in bad_units:
            yield small(flags).but("units", 0, record).data()
            yield small(flags).but("units", 3, record).data()
    for record in ((2, 0, NONE), (0, 1024, NONE), (1, 1023, right ^ 1)):
        yield most.but("units", 1023, record).data()
    yield Image(2, [(0, NONE)], [], [(0, 0, NONE)]).data()


def main():
    images = list(cases())
    with open("crates/images/stdin", "wb") as out:
        for data in images:
            out.write(struct.pack("<I", len(data)) + data)
    with open("crates/images/stdout", "w") as out:
        for data in images:
            out.write(line(data) + "\n")


if __name__ == "__main__":
    main()
