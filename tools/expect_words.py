#!/usr/bin/env python3
"""Writes crates/words/stdin, and crates/words/stdout as the program must write it. Run from the repository's top.

What is expected is worked out here from document 01, "Words", by bit operations alone, and for the words of
oracle/sample/words.txt it is what the Rust packed: nothing of our code is read or run."""

SPEEDS = ["Stay", "Grow", "Shrink"]


def bits(word, first, last):
    return (word >> first) & ((1 << (last - first + 1)) - 1)


def says(word):
    """What a word says, as a name and its numbers, or None for refusal 12."""
    a, b, code = bits(word, 17, 31), bits(word, 2, 16), bits(word, 3, 5)
    if bits(word, 0, 1) == 0b01:
        return "SetBlossom", a, b
    if bits(word, 0, 1) == 0b10:
        return "AddDefectVertex", a, b
    if bits(word, 0, 2) == 0b000:
        speed = bits(word, 15, 16)
        return ("SetSpeed", a, SPEEDS[speed]) if speed < 3 else None
    if bits(word, 0, 2) == 0b100:
        extended = {0: ("FindObstacle",), 4: ("Reset",), 5: ("LoadDefectsExternal", a), 6: ("Grow", bits(word, 6, 31))}
        return extended.get(code)
    return None


def packed(name, *numbers):
    """The word with its spare bits 0, or refusal 13."""
    top = 67_108_863 if name == "Grow" else 32_767
    if any(n > top for n in numbers if n not in SPEEDS):
        return "r 13"
    if name == "SetSpeed":
        return numbers[0] << 17 | SPEEDS.index(numbers[1]) << 15
    if name == "SetBlossom":
        return numbers[0] << 17 | numbers[1] << 2 | 0b01
    if name == "AddDefectVertex":
        return numbers[0] << 17 | numbers[1] << 2 | 0b10
    code = {"FindObstacle": 0, "Reset": 4, "LoadDefectsExternal": 5, "Grow": 6}[name] << 3 | 0b100
    return code | (numbers[0] << (6 if name == "Grow" else 17) if numbers else 0)


def words():
    edges = [0, 1, 32_766, 32_767]
    yield from [688_128, 393_245, 524_290, 180, 36, 655_404, 3, 60, 98_304]  # example L
    yield from (node << 17 | speed << 15 for node in edges for speed in range(4))
    yield from (a << 17 | b << 2 | low for low in (0b01, 0b10) for a in edges for b in edges)
    yield from (code << 3 | 0b100 for code in range(8))  # each extended code
    yield from (a << 17 | 5 << 3 | 0b100 for a in edges)
    yield from (length << 6 | 6 << 3 | 0b100 for length in (0, 1, 2, 67_108_862, 67_108_863))
    yield from (high << 2 | 0b11 for high in (0, 1, 2**30 - 1))  # low bits 11
    spare = [(0, range(3, 15)), (2 << 15, range(3, 15)), (3 << 15, range(3, 15)), (0b100, range(6, 32)), (0b100100, range(6, 32)), (0b101100, range(6, 17))]
    for word, places in spare:  # the lowest spare bit, the highest, and all
        yield from (word | 1 << places[0], word | 1 << places[-1], word | sum(1 << place for place in places))


def rust_words():
    """The words that the Rust's packers give, each with the name and the fields that they were given."""
    with open("oracle/sample/words.txt") as packed_words:
        for name, *fields, word in map(str.split, packed_words):
            if name == "SetSpeed":
                fields[1] = SPEEDS[int(fields[1])]
            yield word, name, fields


def line(*parts):
    return " ".join(str(part) for part in parts) + "\n"


asked, told = "", ""
for word in words():
    asked += line("w", word)
    told += line("word", word, *says(word), packed(*says(word))) if says(word) else line("word", word, "r 12")
for word, name, fields in rust_words():
    asked += line("w", word)
    told += line("word", word, name, *fields, word)
for n in (0, 1, 32_766, 32_767, 32_768, 65_535):
    asked += line("i", n)
    for instruction in (
        ("SetSpeed", n, "Grow"),
        ("SetBlossom", n, 0),
        ("SetBlossom", 0, n),
        ("AddDefectVertex", n, 0),
        ("AddDefectVertex", 0, n),
        ("LoadDefectsExternal", n),
    ):
        told += line("pack", *instruction, packed(*instruction))
for n in (0, 1, 67_108_862, 67_108_863, 67_108_864, 2_147_483_647, 2_147_483_648, 4_294_967_295):
    asked += line("l", n)
    told += line("pack", "Grow", n, packed("Grow", n))
for name, text in (("stdin", asked), ("stdout", told)):
    with open(f"crates/words/{name}", "w") as out:
        out.write(text)
