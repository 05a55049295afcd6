"""Shows that each kind of wrong answer makes a case fail, and that a text in another form is refused."""

from __future__ import annotations

import os
import tempfile

from .form import BadForm, cases_of
from .playing import Player

# A program that prints its file, and then its words to standard error. Its status is 3.
STAND_IN = '#!/bin/sh\ncat "$1"\nshift\nprintf "%s\\\\n" "$*" >&2\nexit 3\n'

BEFORE = "# A sentence.\n=== file a\nmoved\n1> 5\n=== run a b c\n"
STATUS, STDERR = "=== status 3\n", "=== stderr\nb c\n"
STDOUT = "=== stdout\nmoved\n1> 5\n"
TABLE = "# A sentence.\n=== table TEXT => ANSWER\n=== file a\n{TEXT}\n=== run a b\n=== status 3\n=== stdout\n{ANSWER}\n=== stderr any\n=== rows\n"

# Texts of cases that pass with this program.
RIGHT = (
    BEFORE + STATUS + STDOUT + STDERR,
    BEFORE + STATUS + "=== stdout escaped\nmo\\x76ed\\n1> \\\n5\n" + STDERR,
    BEFORE + STATUS + "=== stdout any\n=== stderr some\n",
    BEFORE + STATUS + "=== stdout with\nmoved\n=== or\n1> 5\n" + STDERR,
    BEFORE + STATUS + "=== stdout one of\nno\n=== or\nmoved\n1> 5\n" + STDERR,
    BEFORE + STATUS + "=== stdout lines\n1> 5\n" + STDERR,
    BEFORE + STATUS + STDOUT + STDERR + "=== keep k\n=== join j k a\n=== run j b\n=== status 3\n=== stdout\nmoved\n1> 5\nmoved\n1> 5\n=== stderr\nb\n",
    BEFORE + STATUS + "=== stdout narrow\n" + STDERR,
    BEFORE + STATUS + "=== stdout in any order\n1> 5\nmoved\n" + STDERR,
    "# A sentence.\n=== run a\n=== status 3\n=== stdout to /dev/null\n=== stderr any\n",
    BEFORE.replace("moved\n1> 5", '{"a":[1],"b":"c"}') + STATUS + '=== stdout objects\n{"a":[1],"b":"c"}\n' + STDERR,
    TABLE + "x\\ny => x\\ny\n",
    "# A sentence.\n=== file a\nx\n=== case one\n=== run a\n=== status 3\n=== stdout\nx\n=== stderr any\n",
)

# Texts of cases that fail.
WRONG = (
    BEFORE + STDOUT + STDERR,
    BEFORE + "=== status 2\n" + STDOUT + STDERR,
    BEFORE + STATUS + STDERR,
    BEFORE + STATUS + STDOUT,
    BEFORE + STATUS + "=== stdout\nmoved\n1> 6\n" + STDERR,
    BEFORE + STATUS + "=== stdout\nmoved\n" + STDERR,
    BEFORE + STATUS + "=== stdout\nmoved\n1> 5\n1> 5\n" + STDERR,
    BEFORE + STATUS + "=== stdout escaped\nmoved\n1> 5\\\n" + STDERR,
    BEFORE + STATUS + STDOUT + "=== stderr\nb d\n",
    BEFORE + STATUS + "=== stdout with\nmoved\n=== or\n1> 6\n" + STDERR,
    BEFORE + STATUS + "=== stdout one of\nmoved\n=== or\n1> 5\n" + STDERR,
    BEFORE + STATUS + "=== stdout lines\n1> 6\n" + STDERR,
    BEFORE.replace("moved", "refused") + STATUS + "=== stdout lines\n1> 5\n" + STDERR,
    BEFORE + STATUS + STDOUT + STDERR + "=== keep k\n=== run k b\n=== status 3\n=== stdout\nmoved\n=== stderr\nb\n",
    BEFORE.replace("moved", 81 * "x") + STATUS + "=== stdout narrow\n" + STDERR,
    BEFORE.replace("moved\n1> 5", '{"b":"c","a":[1]}') + STATUS + '=== stdout objects\n{"b":"c","a":[1]}\n' + STDERR,
    BEFORE.replace("moved\n1> 5", '{"b": 1}') + STATUS + '=== stdout objects\n{"b": 1}\n' + STDERR,
    BEFORE.replace("moved\n1> 5", "1") + STATUS + "=== stdout objects\n1\n" + STDERR,
    BEFORE.replace("moved\n1> 5", '{"a":1}') + STATUS + '=== stdout objects\n{"a":2}\n' + STDERR,
    BEFORE + STATUS + "=== stdout in any order\n1> 5\nmoved\nmoved\n" + STDERR,
    "# A sentence.\n=== run a\n=== status 4\n=== stdout to /dev/null\n=== stderr any\n",
    TABLE + "x => x\ny => x\n",
    "# A sentence.\n=== run none\n=== status 3\n=== stdout some\n=== stderr any\n",
)

# Texts that aren't in the form of cases.
BAD = (
    "",
    "no sentence\n" + BEFORE,
    "# A sentence.\n=== file a\n",
    "# A sentence.\n=== file a b\n=== run a\n",
    "# A sentence.\n=== case\n=== run a\n",
    "# A sentence.\n=== case one\n",
    "# A sentence.\n=== run a\n=== case one\n=== run a\n",
    "# A sentence.\n=== stdout\n=== run a\n",
    "# A sentence.\n=== file a\n=== stdout\n",
    "# A sentence.\n=== run a\ntext\n",
    "# A sentence.\n=== run a\n=== status no\n",
    "# A sentence.\n=== run a\n=== stdout some\ntext\n",
    "# A sentence.\n=== run a\n=== stdout exactly\n",
    "# A sentence.\n=== run a\n=== stdout\n=== or\n",
    "# A sentence.\n=== run a\n=== stdout to\n",
    "# A sentence.\n=== run a\n=== status 1\n=== status 1\n",
    "# A sentence.\n=== run a\n=== jump\n",
    "# A sentence.\n=== \n=== run a\n",
    TABLE,
    TABLE + "one cell\n",
    TABLE + "three => cells => here\n",
    "# A sentence.\n=== table A\n=== run {A}\n",
)


def is_each_fault_found() -> bool:
    """Plays all these, and prints those that end in another way than they should."""
    wrong = 0
    with tempfile.TemporaryDirectory() as folder:
        path = f"{folder}/stand_in"
        with open(path, "w", encoding="utf-8") as file:
            file.write(STAND_IN)
        os.chmod(path, 0o755)
        for texts, want in ((RIGHT, "passes"), (WRONG, "fails"), (BAD, "is refused")):
            for text in texts:
                if (found := how_it_ends(Player(path), text)) != want:
                    print(f"{found}, and not {want}:\n{text}")
                    wrong += 1
    count = len(RIGHT) + len(WRONG) + len(BAD)
    print(f"self-test: {wrong} faults; {count} texts were tried")
    return not wrong


def how_it_ends(player: Player, text: str) -> str:
    """Whether each case of a text passes, or only its last one fails, or the text is refused."""
    try:
        cases = cases_of("sample", text.encode())
    except (BadForm, ValueError):
        return "is refused"
    *before, last = (player.faults(it) for it in cases)
    if any(before):
        return "fails early"
    return "fails" if last else "passes"
