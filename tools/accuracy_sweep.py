"""The tasks of a script with other sizes, each alone on a switch over the packets that it counted in the script."""
from __future__ import annotations

import os
from dataclasses import replace
from typing import Dict, List, Sequence, Tuple

from accuracy_exact import Counted
from accuracy_flymon import Program, ask
from accuracy_hash import Hash
from accuracy_measure import Measured, measure, questions_for
from accuracy_script import Task
from flymon_output import Refused


def profile_for(size: int, hash_key: bytes) -> str:
    """Twelve groups of one array and one unit, each array of `size` registers, or of 32 where that is more."""
    log_registers = max(5, size.bit_length() - 1)
    group = f"[[group]]\ncmus = 1\nunits = 1\nlog_registers = {log_registers}\n"
    return f'version = 2\nlog_blocks = 5\nhash_key = "{hash_key.hex()}"\n' + group * 12


def add_of(task: Task) -> str:
    return " ".join(task.words[:7] + (f"memory={task.size}",)) + "\n"


def stem_of(task: Task, end: int) -> str:
    before = f"packets {task.start}\n" if task.start else ""
    return f"{before}{add_of(task)}packets {end - task.start}\n"


def switch_for(program: Program, size: int, hash_key: bytes) -> Program:
    """The program with its profile, or where that is `-` with one made for the size."""
    if program.profile != "-":
        return program
    name = os.path.join(program.folder, "profile")
    with open(name, "w", encoding="ascii") as file:
        file.write(profile_for(size, hash_key))
    return program._replace(profile=name)


def sweep(program: Program, hash_key: bytes, counts: Sequence[Counted], sizes: Sequence[int], capture: str, end: int,
          absent: int) -> List[Measured]:
    """Every task with every size; sizes that the switch refuses are told and left out."""
    rows: List[Measured] = []
    refused: Dict[Tuple[int, str], List[str]] = {}
    hashing = Hash(hash_key)
    for counted in counts:
        asked, whole = questions_for(counted, absent), counted.task
        for size in sizes:
            counted.task = replace(whole, size=size)
            switch = switch_for(program, size, hash_key)
            judged = switch.run(add_of(counted.task).encode("ascii"), capture)[0]
            if isinstance(judged, Refused):
                refused.setdefault((size, judged.reason), []).append(whole.name)
                continue
            answers = ask(switch, stem_of(counted.task, end), asked.lines(), capture)
            rows.append(measure(counted, asked, answers, hashing))
        counted.task = whole
    for (size, reason), names in sorted(refused.items()):
        print(f"size {size} is refused with `{reason}` for {', '.join(names)}")
    return rows
