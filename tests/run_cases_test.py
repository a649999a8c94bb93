"""The self-test of run_cases.py: of a small program that does what its words say, right cases pass, and a wrong
expectation of each kind is noticed."""
import contextlib
import io
import os
import sys
import tempfile
from pathlib import Path
from typing import List, Tuple

import run_cases
from case_calls import UNWRITTEN

# Its words: say A STATUS writes A and ends with the status; tell A STATUS writes the line A on the error output; put A
# NAME writes A into a file; a report that can't be written whole has status 9.
PROGRAM = f"""#!/bin/sh
case $1 in
say) printf "$2" 2>/dev/null || {{ echo 'glass: {UNWRITTEN}' >&2; exit 9; }}; exit "$3" ;;
tell) echo "glass: $2" >&2; exit "$3" ;;
put) printf "$2" >"$3" ;;
show) cat "$2" ;;
skip) printf ab; printf cd 2>/dev/null || exit 0 ;;
esac
"""
HEAD = '''
[files]
f = "one two"
g = { bytes = ["00 * 3", "f[4:]", "f[0]^01", "sha256[3:]"] }

[named]
ab = ["a", "b"]

[[case]]
name = "a_case"
'''
ROWS = r'words = "say head\nrow,0,0,x\nrow,0,1,y\nend\n 0"' + "\n"
DIGEST_OF_AB = "fb8e20fc2e4c3f248c60c39bd652f3c1347298bb977b8b4d5903b85055620603"
DIGEST_OF_Y = "d75af90e453615b96e56354b542987aaebdc221260124274b805a4c7a3d33c69"
DIGEST_OF_ROWS = "93484c34b949d66150a0ed714c755c31380200b8d8db0d5853062e85eb1a9cc7"
# The text of a case that holds, and parts of it with what makes each wrong.
CASES: List[Tuple[str, List[Tuple[str, str]]]] = [
    ('words = "say ab 0"\nout = { named = "ab" }\n',
     [("say ab", "say ac"), ("ab 0", "ab 1"), ("ab 0", "abc 0"), ('"say', '"tell')]),
    ('words = "say ab 3"\nstatus = 3\nout = "ab"\n', [("status = 3", "status = 4"), ('out = "ab"\n', "")]),
    ('words = "say ab 0"\nbegins = "a"\n', [('begins = "a"', 'begins = "b"'), ('begins = "a"\n', "")]),
    (f'words = "say ab 0"\nsha256 = "{DIGEST_OF_AB}"\n', [("say ab", "say ac")]),
    (ROWS + f'rows = {{ samples = [1], sha256 = "{DIGEST_OF_Y}" }}\n', [("[1]", "[0]"), ("[1]", "[0, 1]"), ("1,y", "1,z")]),
    (ROWS + f'rows = {{ below = 2, sha256 = "{DIGEST_OF_ROWS}" }}\n', [("below = 2", "below = 1"), ("0,x", "0,z")]),
    ('words = ["tell", "it is wrong", "5"]\nstatus = 5\nline = ["it is ", "wrong"]\n',
     [('["it is ", ', '["it was ", '), ("status = 5", "status = 2"), ("line", "line_begins"), ('"tell"', '"say"')]),
    ('words = ["tell", "it is wrong", "5"]\nstatus = 5\nline_begins = "it"\n', [('= "it"', '= "is"')]),
    ('words = "tell x 2"\nstatus = 2\nmute = true\n', [("mute = true", "mute = false"), ("status = 2", "status = 3")]),
    ('words = "put abc c"\nout = ""\nsaved.c = { length = 3, ends = "6263" }\n',
     [("length = 3", "length = 4"), ('"6263"', '"6363"'), ("saved.c", "saved.d"), ("put abc c", "put abc d"),
      ("put abc c", "say abc 0"), ("saved.c", "saved.f"), ('{ length = 3, ends = "6263" }', "{}")]),
    ('words = "put ab c"\nout = ""\nsaved.c = { longer = 1 }\n', [("longer = 1", "longer = 2")]),
    ('files.d = "ab"\nwords = "put ab c"\nout = ""\nsaved.c = { as = "d" }\n', [("put ab c", "put ac c"), ("= \"ab\"", "= \"a\"")]),
    ('words = "say ab 0"\nout = "ab"\n', [("say ab 0", "put ab f"), ("say ab 0", "put ab new")]),
    ('words = "say ab 9"\nroom = 1\nstatus = 9\nout = "a"\nline = "writing the report failed"\n', [("room = 1", "room = 2")]),
    ('words = "say abcd 0"\neach_room = true\nout = "abcd"\n', [("say abcd 0", "skip")]),
    ('words = "show f"\nout = "one two"\n', [("show f", "show g")]),
    ('words = "show g"\nout = { bytes = ["00 * 3", "74776f 6e", "43b5f3b6bfcbabadc39a76c697a3a3a654ef99c7511de1c0d8e66ba4de23e284"] }\n', [("00 * 3", "00 * 2"), ("6e", "6f")]),
    ('change.f = { one = "1" }\nwords = "show f"\nout = "1 two"\n', [('= "1" }', '= "2" }'), ("{ one", "{ three")]),
    ('pad.f = 9\nwords = "show f"\nout = "one two\\n\\n"\n', [("pad.f = 9", "pad.f = 8")]),
    ('lost = ["f"]\nfolders = ["g"]\nfiles.h = { times = 2, from = 5, text = "#," }\nwords = "show h"\nout = "5,6,"\n',
     [("from = 5", "from = 4"), ("times = 2", "times = 3")]),
    ('words = "say ab 0"\nout = "ab"\neach = [{}, "say ab 0", { words = "say b 0", out = "b" }]\n',
     [("say b 0", "say c 0"), ('{}, "say ab 0"', '{}, "say ac 0"'), ("{},", "{ status = 1 },"),
      ('[{}, "say ab 0", { words = "say b 0", out = "b" }]', "[]")]),
    (f'steps = [{{ words = "say row,1\\\\n 0", out = "row,1\\n" }}, {{ words = "say row,2\\\\n 0", out = "row,2\\n" }}]\n'
     'adds_up = { first = "a\\n", last = "b\\n", sha256 = "d756fb53f37abcca44d8cea0a32c73caa3257d1a7af0666677b76d7cda670d4c" }\n',
     [('first = "a', 'first = "b'), ('out = "row,1', 'out = "row,2'), ("adds_up", "adds"), ('last = "b', 'last = "c')]),
    ('words = "say ab 0"\nout = "ab"\n', [('words = "say ab 0"\nout = "ab"', "steps = []"), ("out =", "output ="), ("words =", "status ="), ('"ab"', '{ data = "none" }')]),
]


def passes(program: Path, text: str, folder: Path) -> bool:
    """Whether the runner lets a table pass, by its status and its last line."""
    table = folder / "table.toml"
    table.write_text(HEAD + text, encoding="utf-8")
    out = io.StringIO()
    with contextlib.redirect_stdout(out), contextlib.redirect_stderr(io.StringIO()):
        status = run_cases.run_tables(str(program), [table])
    if (status == 0) != out.getvalue().endswith(" passed, 0 failed\n"):
        raise AssertionError(f"status {status} and {out.getvalue()}")
    return status == 0


def self_test() -> int:
    """Tests the runner. Returns the exit status."""
    tried = 0
    with tempfile.TemporaryDirectory() as at:
        program = Path(at) / "program"
        program.write_text(PROGRAM, encoding="utf-8")
        os.chmod(program, 0o755)
        for text, turns in CASES:
            for old, new in [("", "")] + turns:
                tried += 1
                if old not in text or passes(program, text.replace(old, new, 1), Path(at)) != (old == new):
                    print(f"run_cases: self-test: {text!r} with {new!r} in place of {old!r}", file=sys.stderr)
                    return 1
    print(f"run_cases: {tried} tests passed")
    return 0
