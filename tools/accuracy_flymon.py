"""Runs of flymon: a script, questions behind it, and the answers."""
from __future__ import annotations

import os
import subprocess
import sys
import tempfile
from typing import Any, Dict, Iterator, List, NamedTuple, Sequence

from accuracy_script import Block
from flymon_output import Card, Dist, Fault, Query, parse

MOST_BYTES = 1048576
ANSWERS: Dict[str, Any] = {"query": Query, "card": Card, "dist": Dist}


class Failed(Exception):
    """flymon ended with another status than 0."""

    def __init__(self, status: int, message: str) -> None:
        super().__init__(message)
        self.status, self.message = status, message


class Program(NamedTuple):
    """The program with the words that are the same in all runs, and a folder for scripts."""
    path: str
    way: str
    profile: str
    folder: str

    def run(self, script: bytes, capture: str) -> List[Block]:
        """The blocks that a run writes. Lines of the error output that tell how building goes are passed on as they come."""
        name = os.path.join(self.folder, "script")
        with open(name, "wb") as file:
            file.write(script)
        words = [self.path, self.way, self.profile, name, capture]
        told: List[str] = []
        with tempfile.TemporaryFile() as output:
            with subprocess.Popen(words, stdout=output, stderr=subprocess.PIPE, text=True) as running:
                for line in running.stderr or ():
                    if line.startswith("flymon: "):
                        sys.stderr.write(line)
                    told.append(line.strip())
            if running.returncode:
                raise Failed(running.returncode, told[-1] if told else "no message")
            output.seek(0)
            return parse(output.read())


def portions(questions: Sequence[str], room: int) -> Iterator[Sequence[str]]:
    """Questions in as many scripts as are needed to keep each within its limit of bytes."""
    begin, used = 0, 0
    for place, question in enumerate(questions):
        if used + len(question) + 1 > room:
            yield questions[begin:place]
            begin, used = place, 0
        used += len(question) + 1
    if begin < len(questions):
        yield questions[begin:]


def expect(questions: Sequence[str], blocks: Sequence[Block]) -> None:
    """Each question has an answer of its form and task."""
    for question, block in zip(questions, blocks):
        word, task = question.split()[:2]
        if not isinstance(block, ANSWERS[word]) or block.task != task:
            raise Fault(block.line, f"no answer to `{question}`")
    if len(blocks) != len(questions):
        raise Fault(blocks[-1].line if blocks else 1, f"{len(questions)} answers are due, {len(blocks)} came")


def ask(program: Program, stem: str, questions: Sequence[str], capture: str) -> List[Block]:
    """The answers to questions behind the commands of a stem, one a question."""
    answers: List[Block] = []
    commands = stem.count("\n")
    for portion in portions(questions, MOST_BYTES - len(stem)):
        blocks = program.run((stem + "".join(question + "\n" for question in portion)).encode("ascii"), capture)
        expect(portion, blocks[commands:])
        answers += blocks[commands:]
    return answers
