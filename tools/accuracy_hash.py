"""Which counters a flow has: the hash of docs/FORMATS.md, worked out bit by bit from its key."""
from __future__ import annotations

import re
from typing import Dict, List, Optional, Sequence, Tuple

from accuracy_script import FIELDS, Task, Value

try:
    import tomllib
except ImportError:  # Python before 3.11
    tomllib = None  # type: ignore[assignment]

WIDTH = 32
SIDE_SCALING = bytes.fromhex("6d5a56da255b0ec24167253d43a38fb0d0ca2bcbae7b30b477cb2da38030f20c6a42b73bbeac01fa")
DEFAULT_KEY = SIDE_SCALING + SIDE_SCALING[:12]


def key_of_profile(name: Optional[str]) -> bytes:
    """The hash key that a profile names, which flymon has taken; the default key without one."""
    if name is None or name == "-":
        return DEFAULT_KEY
    with open(name, encoding="utf-8") as file:
        text = file.read()
    if tomllib is not None:
        stands = tomllib.loads(text).get("hash_key")
        return bytes.fromhex(stands) if stands else DEFAULT_KEY
    found = re.search(r"""^\s*["']?hash_key["']?\s*=\s*["']([0-9a-fA-F]{104})["']""", text, re.MULTILINE)
    return bytes.fromhex(found.group(1)) if found else DEFAULT_KEY


def windows_of(key: bytes) -> List[int]:
    """For each bit of the key vector, the 32 bits of the key that begin at its place."""
    whole = int.from_bytes(key, "big")
    bits = len(key) * 8
    return [whole >> (bits - WIDTH - place) & 0xFFFFFFFF for place in range(bits - WIDTH)]


class Hash:
    """The hashes of key values under one key."""

    def __init__(self, key: bytes) -> None:
        self.windows = windows_of(key)

    def of(self, task: Task, value: Value) -> int:
        result = 0
        for part, number in zip(task.key, value):
            _, bits, first = FIELDS[part.place]
            end = first * 8 + bits - 1
            while number:
                low = number & -number
                result ^= self.windows[end - low.bit_length() + 1]
                number ^= low
        return result


def row_hash(whole: int, row: int) -> int:
    turn = 8 * row % WIDTH
    return (whole << turn | whole >> (WIDTH - turn)) & 0xFFFFFFFF


def index_of(hashed: int, size: int) -> int:
    return hashed >> (WIDTH - (size.bit_length() - 1))


def rank_of(hashed: int, size: int) -> int:
    below = WIDTH - (size.bit_length() - 1)
    rest = hashed & ((1 << below) - 1)
    return below - rest.bit_length() + 1


def places_of(hashing: Hash, task: Task, value: Value) -> List[Tuple[int, int]]:
    """In each row the row's hash and the index of the key value's cell."""
    whole = hashing.of(task, value)
    hashes = [row_hash(whole, row) for row in range(task.rows)]
    return [(hashed, index_of(hashed, task.size)) for hashed in hashes]


Cells = List[Dict[int, int]]


def brought(kind: str, hashed: int, size: int, exact: int) -> int:
    if kind == "bloom":
        return 1 << (hashed & 31)
    return rank_of(hashed, size) if kind == "hll" else exact


def gathered(kind: str, before: Optional[int], more: int) -> int:
    """A cell with one flow more: what the cell makes of all its packets it also makes of the exact answers of its flows."""
    if before is None:
        return more
    if kind in ("hll", "sumax_max"):
        return max(before, more)
    if kind in ("bloom", "flag_or"):
        return before | more
    return before & more if kind == "flag_and" else before + more


def cells_of(hashing: Hash, task: Task, flows: Dict[Value, int]) -> Tuple[Cells, Cells]:
    """The cells of a textbook sketch with rows of its own that flows came to, and the number of flows at each."""
    cells: Cells = [{} for _ in range(task.rows)]
    sharing: Cells = [{} for _ in range(task.rows)]
    for value, exact in flows.items():
        for row, (hashed, index) in enumerate(places_of(hashing, task, value)):
            more = brought(task.kind, hashed, task.size, exact)
            cells[row][index] = gathered(task.kind, cells[row].get(index), more)
            sharing[row][index] = sharing[row].get(index, 0) + 1
    return cells, sharing


def found_in(cells: Sequence[Dict[int, int]], places: Sequence[Tuple[int, int]], start: int) -> List[int]:
    return [row.get(index, start) for row, (_, index) in zip(cells, places)]
