"""Scripts of flymon and what its output says of them: the tasks that are live at the end, and since which packet they count."""
from __future__ import annotations

import ipaddress
from dataclasses import dataclass, field, replace
from typing import Any, Dict, List, NamedTuple, Sequence, Tuple

from flymon_output import Card, Dist, Done, Fault, Packets, Query

# Name, bits and first byte in the key vector of each field, in order.
FIELDS = (("src_ip", 32, 0), ("dst_ip", 32, 4), ("src_port", 16, 8), ("dst_port", 16, 10), ("proto", 8, 12), ("tos", 8, 13),
          ("ethertype", 16, 14), ("src_ip6", 128, 16), ("dst_ip6", 128, 32))
PLACES = {name: place for place, (name, _, _) in enumerate(FIELDS)}
MOST_PACKETS = 4294967295
CHANGES = ("add", "resize", "remove", "release")
Value = Tuple[int, ...]
Block = Any  # one of the tuples of flymon_output


class Part(NamedTuple):
    """A field of a key, or of a filter with its value: only the first `prefix` bits count."""
    place: int
    prefix: int
    value: int = 0

    @property
    def name(self) -> str:
        return FIELDS[self.place][0]

    @property
    def shift(self) -> int:
        return FIELDS[self.place][1] - self.prefix

    def of(self, fields: Value) -> int:
        return fields[self.place] >> self.shift << self.shift


@dataclass(frozen=True)
class Task:
    name: str
    kind: str
    rows: int
    key: Tuple[Part, ...]
    attribute: str
    filter: Tuple[Part, ...]
    size: int
    start: int
    words: Tuple[str, ...] = field(repr=False, default=())

    def value_of(self, fields: Value) -> Value:
        return tuple(part.of(fields) for part in self.key)

    def matches(self, fields: Value) -> bool:
        return all(part.of(fields) == part.value for part in self.filter)

    def at(self, value: Value) -> str:
        """The key value as the word of a query."""
        items = []
        for part, number in zip(self.key, value):
            end = f"/{part.prefix}" if part.shift else ""
            items.append(f"{part.name}:{spelled(part.name, number)}{end}")
        return ",".join(items)


def spelled(name: str, number: int) -> str:
    if name in ("src_ip", "dst_ip"):
        return str(ipaddress.IPv4Address(number))
    if name in ("src_ip6", "dst_ip6"):
        return ipaddress.IPv6Address(number).exploded
    return f"0x{number:04x}" if name == "ethertype" else str(number)


def read_value(name: str, text: str) -> int:
    if name in ("src_ip", "dst_ip"):
        return int.from_bytes(bytes(int(part) for part in text.split(".")), "big")
    if name in ("src_ip6", "dst_ip6"):
        return int(ipaddress.IPv6Address(text))
    return int(text, 16) if name == "ethertype" else int(text)


def read_item(item: str) -> Part:
    """An item of a key or of a filter, which flymon has taken."""
    item, _, prefix = item.partition("/")
    name, _, text = item.partition(":")
    place = PLACES[name]
    part = Part(place, int(prefix) if prefix else FIELDS[place][1])
    if not text:
        return part
    whole = (0,) * place + (read_value(name, text),)
    return part._replace(value=part.of(whole))


def read_items(text: str) -> Tuple[Part, ...]:
    return () if text == "all" else tuple(read_item(item) for item in text.split(","))


def commands_of(text: bytes) -> List[Tuple[str, ...]]:
    """The words of each command of a script that flymon has taken."""
    lines = (line.replace(b"\t", b" ").rstrip(b"\r").strip(b" ") for line in text.split(b"\n"))
    kept = (line for line in lines if line and not line.startswith(b"#"))
    return [tuple(line.decode("ascii").split()) for line in kept]


def added(words: Sequence[str], start: int) -> Task:
    _, name, kind, rows, *labelled = words
    key, attribute, chosen, size = (word.partition("=")[2] for word in labelled)
    return Task(name, kind, int(rows), read_items(key), attribute, read_items(chosen), int(size), start, tuple(words))


class Own(NamedTuple):
    """An answered question of the script: the task as it was then, and how many packets were taken before."""
    task: Task
    end: int
    words: Tuple[str, ...]
    block: Block


class Ended(NamedTuple):
    """What stands behind the last command: live tasks, packets taken, the commands that matter for both, for each that takes
    packets how many it asked for and got, and the answered questions."""
    tasks: List[Task]
    packets: int
    stem: str
    taken: List[Tuple[int, int]]
    owns: List[Own]


def change(tasks: Dict[str, Task], words: Sequence[str], start: int) -> None:
    """A change that the switch carried out."""
    if words[0] == "add":
        tasks[words[1]] = added(words, start)
    elif words[0] == "resize":
        size = int(words[2].partition("=")[2])
        tasks[words[1]] = replace(tasks[words[1]], size=size, start=start)
    elif words[0] == "remove":
        del tasks[words[1]]


def follow(script: bytes, blocks: Sequence[Block]) -> Ended:
    """Goes through a script beside the blocks of its output, one a command."""
    tasks: Dict[str, Task] = {}
    packets, stem, taken, owns = 0, [], [], []
    commands = commands_of(script)
    if len(blocks) != len(commands):
        raise Fault(blocks[-1].line if blocks else 1, f"{len(commands)} commands have {len(blocks)} answers")
    for words, block in zip(commands, blocks):
        if words[0] in CHANGES + ("packets", "run"):
            stem.append(" ".join(words))
        if isinstance(block, Packets):
            taken.append((int(words[1]) if len(words) > 1 else MOST_PACKETS, block.count))
            packets += block.count
        elif isinstance(block, Done):
            change(tasks, words, packets)
        elif isinstance(block, (Query, Card, Dist)):
            owns.append(Own(tasks[block.task], packets, words, block))
    return Ended(list(tasks.values()), packets, "".join(line + "\n" for line in stem), taken, owns)
