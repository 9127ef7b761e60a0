"""Answers the questions on standard input, a line each."""

import sys

from .answers import answer

for line in sys.stdin:
    print(answer(line.rstrip("\n")))
