"""A line of question to its line of answer."""

from . import row_questions, sheet_questions
from .protocol import hex_numbers
from .refusal import Refused

QUESTIONS = {**row_questions.QUESTIONS, **sheet_questions.QUESTIONS}
WORKSPACE_LEFT = (1, 2)  # these refusals do not touch the workspace


def answer(line):
    """The answer, with the end state of what was lent."""
    name, *words = line.split(" ")
    asked = QUESTIONS[name]
    try:
        values, written = asked.answer(*words)
        said, number = ["ok", *values], 0
    except Refused as refusal:
        written, number = [], refusal.number
        said = ["refused", str(number), str(refusal.place)]
    if asked.buffer:
        said += ["out", hex_numbers(written)]
    if asked.workspace:
        said += ["ws", "left" if number in WORKSPACE_LEFT else "zero"]
    return " ".join(said)
