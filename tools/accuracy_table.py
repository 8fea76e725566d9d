"""Measured errors as a text table and as CSV."""
from __future__ import annotations

import csv
from typing import List, Optional, Sequence, Tuple

from accuracy_measure import FLAGS, Measured

COLUMNS = ("run", "task", "kind", "rows", "memory", "registers", "key", "attribute", "filter", "start", "packets", "flows",
           "average_relative_error", "average_absolute_error", "exact_share", "wrong_bits", "absent_of_capture",
           "absent_made_up", "false_positives", "false_positive_rate", "estimate", "corrected_estimate", "relative_error", "wmre")


def shown(number: Optional[float], scale: int = 1, end: str = "") -> str:
    return "-" if number is None else f"{number * scale:.4g}{end}"


def remark(measured: Measured) -> str:
    """What the kind has beside the common columns."""
    kind = measured.task.kind
    if kind == "bloom":
        asked = f"{measured.outside} of the capture's others, {measured.synthetic} made up"
        rate = shown(measured.false_positive_rate, 100, " %")
        return f"{measured.false_positives} of {measured.absent} absent say yes: {rate} ({asked})"
    if kind == "hll":
        return f"estimate {measured.estimate} of {measured.flows}, {measured.corrected} with the correction for few"
    if kind == "mrac":
        return f"WMRE of the flow sizes {shown(measured.wmre)}"
    return f"{measured.wrong_bits} wrong bits" if kind in FLAGS else ""


def cells(measured: Measured) -> Tuple[str, ...]:
    task = measured.task
    return (task.name, task.kind, str(task.rows), str(task.size), str(measured.packets), str(measured.flows),
            shown(measured.relative), shown(measured.absolute), shown(measured.exact_share, 100, " %"), remark(measured))


def print_table(rows: Sequence[Measured]) -> None:
    head = ("task", "kind", "rows", "size", "packets", "flows", "relative", "absolute", "exact", "")
    lines = [head] + [cells(row) for row in rows]
    widths = [max(len(line[column]) for line in lines) for column in range(len(head))]
    for line in lines:
        parts = [text.ljust(width) if column < 2 else text.rjust(width) if column < 9 else text
                 for column, (text, width) in enumerate(zip(line, widths))]
        print("  ".join(parts).rstrip())


def csv_row(run: str, measured: Measured) -> List[object]:
    task = measured.task
    key, attribute, chosen = (word.partition("=")[2] for word in task.words[4:7])
    is_hll = task.kind == "hll"
    return [run, task.name, task.kind, task.rows, task.size, task.rows * task.size, key, attribute, chosen, task.start,
            measured.packets, measured.flows, None if is_hll else measured.relative, None if is_hll else measured.absolute,
            measured.exact_share, measured.wrong_bits, measured.outside, measured.synthetic, measured.false_positives,
            measured.false_positive_rate, measured.estimate, measured.corrected, measured.relative if is_hll else None,
            measured.wmre]


def write_csv(name: str, script: Sequence[Measured], sweep: Sequence[Measured]) -> None:
    with open(name, "w", newline="", encoding="ascii") as file:
        writer = csv.writer(file, lineterminator="\n")
        writer.writerow(COLUMNS)
        writer.writerows(csv_row("script", row) for row in script)
        writer.writerows(csv_row("sweep", row) for row in sweep)
