"""The questions on rows, and `eval`."""

from . import algebra, rows
from .expressions import evaluate, of_indices
from .protocol import Question, data_of, numbers_of


def one_row(part, room):
    """The answer that is one part."""
    return list_answer([part], room)


def list_answer(parts, room):
    """The answer that is a list of parts."""
    return [str(len(parts))], rows.rows_of(parts, int(room))


def part_operand(word):
    """A part as a list of one."""
    return [rows.read_part(numbers_of(word))]


def list_operand(word):
    """A list."""
    return rows.read_list(numbers_of(word))


def new(numbers, room):
    """A part of given indices."""
    return one_row(rows.read_new(numbers_of(numbers)), room)


def single(number, room):
    """The part of one index."""
    return one_row(rows.read_new([int(number)]), room)


def compare(left, right):
    """The order of two parts."""
    [left], [right] = part_operand(left), part_operand(right)
    return [str(algebra.compare(left, right))], []


def evaluated(expression, room):
    """An expression over indices."""
    return list_answer(evaluate(of_indices(data_of(expression)), int), room)


def operator(apply, read_left, read_right):
    """The question that applies an operator to two operands, the left one read first."""
    def answer(left, right, room):
        operands = read_left(left), read_right(right)
        return list_answer(apply(*operands), room)
    return Question(answer, buffer=True)


def several(apply):
    """The question that applies an operator to any number of lists."""
    def answer(counts, numbers, room):
        lists = rows.read_lists(numbers_of(counts), numbers_of(numbers))
        return list_answer(algebra.tidy(apply(lists)), room)
    return Question(answer, buffer=True)


QUESTIONS = {
    "new": Question(new, buffer=True),
    "single": Question(single, buffer=True),
    "join": operator(algebra.bitand, part_operand, part_operand),
    "compare": Question(compare),
    "add": operator(algebra.add, list_operand, list_operand),
    "add_part": operator(algebra.add, list_operand, part_operand),
    "part_add": operator(algebra.add, part_operand, list_operand),
    "bitand": operator(algebra.bitand, list_operand, list_operand),
    "bitand_part": operator(algebra.bitand, list_operand, part_operand),
    "part_bitand": operator(algebra.bitand, part_operand, list_operand),
    "sub": operator(algebra.sub, list_operand, list_operand),
    "sub_part": operator(algebra.sub, list_operand, part_operand),
    "div": operator(algebra.div, list_operand, list_operand),
    "div_part": operator(algebra.div, list_operand, part_operand),
    "oneof": several(algebra.oneof),
    "and": several(algebra.and_),
    "andor": several(algebra.andor),
    "eval": Question(evaluated, buffer=True),
}
