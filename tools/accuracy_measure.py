"""Errors of a task's answers beside the exact ones, and the promises that they keep or break.

What a kind promises stands in docs/MODEL.md (laws of answers). Beside that each answer is the one of a textbook sketch with
counters of its own, worked out from the exact answers of the flows that share a counter; only SuMax that adds depends on the
order of packets, and is at most what Count-Min says of the same counters.
"""
from __future__ import annotations

import math
import random
from collections import Counter
from dataclasses import dataclass, field
from typing import Dict, List, Optional, Sequence, Tuple

from accuracy_exact import Counted
from accuracy_hash import Hash, cells_of, found_in, places_of
from accuracy_script import Block, Task, Value

TOP = 4294967295
MOST_OUTSIDE = 10000
COUNTING = ("cms", "sumax_sum", "sumax_max")
FLAGS = ("flag_or", "flag_and")


@dataclass
class Measured:
    """The errors of one task with one size; what its kind has not is None."""
    task: Task
    packets: int
    flows: int
    relative: Optional[float] = None
    absolute: Optional[float] = None
    exact_share: Optional[float] = None
    wrong_bits: Optional[int] = None
    outside: Optional[int] = None
    synthetic: Optional[int] = None
    false_positives: Optional[int] = None
    estimate: Optional[int] = None
    corrected: Optional[int] = None
    wmre: Optional[float] = None
    broken: List[str] = field(default_factory=list)

    @property
    def absent(self) -> int:
        return (self.outside or 0) + (self.synthetic or 0)

    @property
    def false_positive_rate(self) -> Optional[float]:
        return (self.false_positives or 0) / self.absent if self.absent else None

    @property
    def error(self) -> Optional[float]:
        """The one number that the picture shows."""
        if self.task.kind == "bloom":
            return self.false_positive_rate
        if self.task.kind == "mrac":
            return self.wmre
        if self.task.kind in FLAGS:
            return None if self.exact_share is None else 1 - self.exact_share
        return self.relative


@dataclass
class Questions:
    """What a task is asked: its flows, and for a Bloom filter key values of which no packet came."""
    task: Task
    present: List[Value]
    outside: List[Value]
    synthetic: List[Value]

    def lines(self) -> List[str]:
        if self.task.kind in ("hll", "mrac"):
            return [f"{'card' if self.task.kind == 'hll' else 'dist'} {self.task.name}"]
        return [f"query {self.task.name} {self.task.at(value)}" for value in self.present + self.outside + self.synthetic]


def made_up(counted: Counted, number: int) -> List[Value]:
    """Key values drawn evenly from all that the key has, of which no packet of the capture came."""
    chance = random.Random(1)
    task = counted.task
    found: Dict[Value, None] = {}
    for _ in range(number * 20):
        if len(found) == number:
            break
        value = tuple(chance.getrandbits(part.prefix) << part.shift for part in task.key)
        if value not in counted.flows and value not in counted.outside:
            found[value] = None
    return list(found)


def questions_for(counted: Counted, absent: int) -> Questions:
    is_bloom = counted.task.kind == "bloom"
    outside = list(counted.missing())[:MOST_OUTSIDE] if is_bloom else []
    return Questions(counted.task, list(counted.flows), outside, made_up(counted, absent) if is_bloom else [])


class Textbook:
    """What a sketch with rows of its own would say."""

    def __init__(self, hashing: Hash, task: Task, flows: Dict[Value, int]) -> None:
        self.hashing, self.task = hashing, task
        self.cells, self.sharing = cells_of(hashing, task, flows)

    def answer(self, value: Value) -> int:
        places = places_of(self.hashing, self.task, value)
        start = TOP if self.task.kind == "flag_and" else 0
        cells = [min(cell, TOP) for cell in found_in(self.cells, places, start)]
        if self.task.kind == "bloom":
            return int(all(cell >> (hashed & 31) & 1 for cell, (hashed, _) in zip(cells, places)))
        if self.task.kind == "flag_or":
            return and_of(cells)
        return or_of(cells) if self.task.kind == "flag_and" else min(cells)

    def is_alone(self, value: Value) -> bool:
        return 1 in found_in(self.sharing, places_of(self.hashing, self.task, value), 0)


def and_of(cells: Sequence[int]) -> int:
    result = TOP
    for cell in cells:
        result &= cell
    return result


def or_of(cells: Sequence[int]) -> int:
    result = 0
    for cell in cells:
        result |= cell
    return result


def law_broken(kind: str, exact: int, answer: int) -> Optional[str]:
    """What the kind promises for every hash, whoever shares counters."""
    if kind in COUNTING and answer < min(exact, TOP):
        return f"answer {answer} is below the exact {exact}"
    if kind == "flag_or" and exact & ~answer:
        return f"answer {answer} lacks flags of the exact {exact}"
    if kind == "flag_and" and answer & ~exact:
        return f"answer {answer} has flags that the exact {exact} has not"
    return None


def fault_of(book: Textbook, value: Value, exact: int, answer: int) -> Optional[str]:
    kind = book.task.kind
    broken = law_broken(kind, exact, answer)
    if broken:
        return broken
    if answer != min(exact, TOP) and book.is_alone(value):
        return f"answer {answer} is not the exact {exact}, though no other flow shares a counter"
    wanted = book.answer(value)
    if kind == "sumax_sum":
        return f"answer {answer} is above {wanted}, all that came to its counters" if answer > wanted else None
    return f"answer {answer} is not {wanted}, which its counters hold" if answer != wanted else None


def bloom_fault(book: Textbook, value: Value, came: bool, is_yes: bool) -> Optional[str]:
    if came and not is_yes:
        return "answer no, though it came"
    right = bool(book.answer(value))
    return None if is_yes == right else f"the answer is not {'yes' if right else 'no'}, which its bits say"


def tell(measured: Measured, value: Value, fault: Optional[str]) -> None:
    if fault:
        task = measured.task
        measured.broken.append(f"{task.name} {task.at(value)}: {fault}")


def measure_numbers(counted: Counted, answers: Sequence[Block], hashing: Hash) -> Measured:
    """Counting sketches and flags, flow by flow."""
    task, flows = counted.task, counted.flows
    measured = Measured(task, counted.packets, len(flows))
    book = Textbook(hashing, task, flows)
    off, relative, bits = [], [], 0
    for (value, exact), block in zip(flows.items(), answers):
        answer = int(block.answer)
        tell(measured, value, fault_of(book, value, exact, answer))
        off.append(abs(answer - exact))
        bits += bin(answer ^ exact).count("1")
        if exact:
            relative.append(abs(answer - exact) / exact)
    if flows:
        measured.exact_share = off.count(0) / len(flows)
    if task.kind in FLAGS:
        measured.wrong_bits = bits
    elif flows:
        measured.absolute = sum(off) / len(off)
        measured.relative = sum(relative) / len(relative) if relative else None
    return measured


def measure_bloom(counted: Counted, asked: Questions, answers: Sequence[Block], hashing: Hash) -> Measured:
    task, flows = counted.task, counted.flows
    measured = Measured(task, counted.packets, len(flows), outside=len(asked.outside), synthetic=len(asked.synthetic))
    book = Textbook(hashing, task, flows)
    yes = [block.answer == "yes" for block in answers]
    came = len(asked.present)
    for value, is_yes in zip(asked.present + asked.outside + asked.synthetic, yes):
        tell(measured, value, bloom_fault(book, value, value in flows, is_yes))
    measured.false_positives = sum(yes[came:])
    measured.exact_share = sum(yes[:came]) / came if came else None
    return measured


def alpha(size: int) -> Tuple[int, int]:
    fixed = {16: (673, 1000), 32: (697, 1000), 64: (709, 1000)}
    return fixed.get(size, (7213 * size, 10 * (1000 * size + 1079)))


def corrected(size: int, zeros: int, raw: int) -> int:
    """The usual correction for few flows, which flymon leaves to the reader: counting by the registers that are zero."""
    return round(size * math.log(size / zeros)) if zeros and raw <= 2.5 * size else raw


def measure_hll(counted: Counted, answers: Sequence[Block], hashing: Hash) -> Measured:
    """The three numbers of `card`, each beside that of the textbook's registers."""
    task, distinct = counted.task, len(counted.flows)
    row = Textbook(hashing, task, counted.flows).cells[0]
    zeros = task.size - len(row)
    z = zeros * 2 ** 33 + sum(2 ** (33 - rank) for rank in row.values())
    over, under = alpha(task.size)
    raw = over * task.size ** 2 * 2 ** 33 // (under * z)
    card = answers[0]
    measured = Measured(task, counted.packets, distinct, estimate=card.raw)
    if (card.zeros, card.z, card.raw) != (zeros, z, raw):
        measured.broken.append(f"{task.name} all flows: zeros {card.zeros} z {card.z} raw {card.raw}, where its registers"
                               f" come to zeros {zeros} z {z} raw {raw}")
    measured.corrected = corrected(task.size, zeros, card.raw)
    if distinct:
        measured.relative = abs(card.raw - distinct) / distinct
        measured.absolute = abs(card.raw - distinct)
    return measured


def wmre(exact: Counter, told: Counter) -> Optional[float]:
    """Of two distributions of sizes: what differs, over the mean of both."""
    sizes = exact.keys() | told.keys()
    apart = sum(abs(exact[size] - told[size]) for size in sizes)
    mean = sum(exact[size] + told[size] for size in sizes) / 2
    return apart / mean if mean else None


def measure_mrac(counted: Counted, answers: Sequence[Block], hashing: Hash) -> Measured:
    task = counted.task
    row = Textbook(hashing, task, counted.flows).cells[0]
    wanted = Counter(min(cell, TOP) for cell in row.values())
    wanted[0] += task.size - len(row)
    told = Counter(dict(answers[0].sizes))
    measured = Measured(task, counted.packets, len(counted.flows))
    wrong = sorted(size for size in wanted.keys() | told.keys() if wanted[size] != told[size])
    if wrong:
        size = wrong[0]
        measured.broken.append(f"{task.name} flows of size {size}: {told[size]} counters, not {wanted[size]}")
    del told[0]
    measured.wmre = wmre(Counter(size for size in counted.flows.values() if size), told)
    return measured


def measure(counted: Counted, asked: Questions, answers: Sequence[Block], hashing: Hash) -> Measured:
    kind = counted.task.kind
    if kind == "bloom":
        return measure_bloom(counted, asked, answers, hashing)
    if kind == "hll":
        return measure_hll(counted, answers, hashing)
    return measure_mrac(counted, answers, hashing) if kind == "mrac" else measure_numbers(counted, answers, hashing)
