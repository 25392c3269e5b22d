"""The second program: document 01 in Python, a request a line in, an answer a line out."""

import sys

import boxes
import extended
import floats
import lifecycles
import metrics
import mot
import search
from words import Fault, Request

# a module of document 01 is a file; its requests are added here
MODULES = floats, boxes, search, lifecycles, extended, mot, metrics
ANSWERS = {name: answer for module in MODULES for name, answer in module.ANSWERS.items()}


def answer(line):
    if not line:
        return ""
    try:
        request = Request(line)
        if request.name not in ANSWERS:
            raise Fault
        return ANSWERS[request.name](request)
    except Fault:
        return "?"


def main():
    # any byte may come; only \n ends a line
    sys.stdin.reconfigure(encoding="latin-1", newline="\n")
    write = sys.stdout.write
    for line in sys.stdin:
        write(answer(line.rstrip("\n")) + "\n")


if __name__ == "__main__":
    main()
