"""The questions that a script asks itself, beside exact answers over the packets that the task had counted by then."""
from __future__ import annotations

from typing import Dict, List, Optional, Sequence, Tuple

from accuracy_exact import Counted
from accuracy_hash import Hash
from accuracy_measure import Textbook, bloom_fault, fault_of, measure_hll, measure_mrac
from accuracy_script import Own, Task, Value, read_items
from flymon_output import Card, Query

Window = Tuple[Task, int]


def windows_of(owns: Sequence[Own]) -> List[Window]:
    return list(dict.fromkeys((own.task, own.end) for own in owns))


def value_in(own: Own) -> Value:
    """The key value that a query asks for, in the order of the task's key."""
    given = {part.place: part.value for part in read_items(own.words[2])}
    return tuple(given[part.place] for part in own.task.key)


def exact_text(kind: str, exact: Optional[int]) -> str:
    if kind == "bloom":
        return "no" if exact is None else "yes"
    if exact is None:
        return "no packet" if kind == "flag_and" else "0"
    return str(exact)


def query_fault(book: Textbook, value: Value, exact: Optional[int], answer: str) -> Optional[str]:
    """What is wrong with an answer; a key value that never came has only the textbook's answer to keep to."""
    if book.task.kind == "bloom":
        return bloom_fault(book, value, exact is not None, answer == "yes")
    if exact is not None:
        return fault_of(book, value, exact, int(answer))
    wanted = book.answer(value)
    if int(answer) == wanted or book.task.kind == "sumax_sum" and int(answer) < wanted:
        return None
    return f"answer {answer} is not {wanted}, which its counters hold"


def judge_query(own: Own, counted: Counted, book: Textbook) -> Tuple[str, Optional[str]]:
    """The line to print, and what is wrong."""
    value = value_in(own)
    exact = counted.flows.get(value)
    question = " ".join(own.words)
    line = f"after {own.end} packets: {question}: {own.block.answer}, exact {exact_text(own.task.kind, exact)}"
    fault = query_fault(book, value, exact, own.block.answer)
    return line, f"{own.task.name} {own.task.at(value)} after {own.end} packets: {fault}" if fault else None


def judge_whole(own: Own, counted: Counted, hashing: Hash) -> Tuple[str, Sequence[str]]:
    """The same of `card` and `dist`."""
    head = f"after {own.end} packets: {' '.join(own.words)}: "
    if isinstance(own.block, Card):
        return f"{head}{own.block.raw}, exact {len(counted.flows)}", measure_hll(counted, [own.block], hashing).broken
    measured = measure_mrac(counted, [own.block], hashing)
    error = "-" if measured.wmre is None else f"{measured.wmre:.4g}"
    return f"{head}WMRE {error}", measured.broken


def judge_own(owns: Sequence[Own], counts: Sequence[Counted], hashing: Hash) -> List[str]:
    """Prints each question with its answer and the exact one, and tells what is wrong."""
    by_window: Dict[Window, Counted] = dict(zip(windows_of(owns), counts))
    books: Dict[Window, Textbook] = {}
    broken: List[str] = []
    for own in owns:
        window = own.task, own.end
        counted = by_window[window]
        if isinstance(own.block, Query):
            if window not in books:
                books[window] = Textbook(hashing, own.task, counted.flows)
            line, fault = judge_query(own, counted, books[window])
            broken += [fault] if fault else []
        else:
            line, faults = judge_whole(own, counted, hashing)
            broken += faults
        print(line)
    return broken
