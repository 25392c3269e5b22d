"""The three programs: where they are, and what they answer to a list of requests."""

import os
import subprocess
import sys
from pathlib import Path

from requests import CALLS
from sequences import SHAPES, Answer, taken_apart

HERE = Path(__file__).resolve().parent
OUT = Path(os.environ.get("ORACLE_OUT", HERE.parent / "target" / "oracle"))
COMMANDS = {
    "second": [sys.executable, "-B", str(HERE / "second" / "main.py")],
    "rust": [str(OUT / "rust" / "answers")],
    "port": [str(HERE / "port")],
    "native": [str(OUT / "native" / "answers")],
}
NEEDS = {"second": COMMANDS["second"][-1], "rust": COMMANDS["rust"][0], "port": HERE.parent / "crates/answers/out/answers",
         "native": COMMANDS["native"][0]}
MAKES = {"second": "it belongs here", "rust": "oracle/build makes it",
         "port": "rt run in crates/answers makes it, or rt ci (or --without-port)", "native": "oracle/native makes it"}
ENDED = "no answer"


def ask(program, lines):
    """The program's answers; where it ends early, the list ends with a word on that."""
    if not os.path.exists(NEEDS[program]):
        sys.exit("no %s; %s" % (NEEDS[program], MAKES[program]))
    folder = OUT / "compare"
    folder.mkdir(parents=True, exist_ok=True)
    asked, said = folder / (program + ".asked"), folder / (program + ".said")
    asked.write_bytes("".join(line + "\n" for line in lines).encode("latin-1"))
    with open(asked) as source, open(said, "w") as sink:
        status = subprocess.run(COMMANDS[program], stdin=source, stdout=sink).returncode
    answers = said.read_bytes().decode("latin-1").split("\n")
    rest = answers.pop()
    if len(answers) < len(lines):
        answers.append("%s (status %d) %s" % (ENDED, status, rest))
    elif status or rest or len(answers) > len(lines):
        sys.exit("%s: status %d, %d answers to %d requests" % (program, status, len(answers), len(lines)))
    return answers


def ask_rust(lines, second):
    """What the Rust says, by the request's place, and what it has to say; `second` are the second program's answers.

    Left out is what the second program refuses, and what is no request. Of a sequence of frames the Rust gets those
    that are not refused.
    """
    asked, expected = {}, {}
    for i, (line, answer) in enumerate(zip(lines, second)):
        name = line.split(" ", 1)[0]
        if name not in CALLS or answer.endswith("?") or answer.startswith(ENDED):
            continue
        if name in SHAPES:
            sequence = taken_apart(line)
            said = Answer(sequence, answer)
            if said.getters[0] == "0" and sequence.fits_rust():
                asked[i] = " ".join(["refused", str(len(said.numbers)), *said.numbers, line])
                expected[i] = said.in_rust_order()
        elif not CALLS[name].numbered or answer.startswith("0 "):
            asked[i], expected[i] = line, answer
    return dict(zip(asked, ask("rust", list(asked.values())))), expected
