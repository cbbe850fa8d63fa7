"""What the scripts of stress/ share: how a program answers a text.

They try the programs on texts that nobody wrote by hand, and on machines that refuse. bin/lint runs none of them, and the gate runs
only one round of stress/storm. They need the built programs, which bin/build makes.
"""
import pathlib
import resource
import subprocess
import sys

sys.path.insert(0, str(pathlib.Path(__file__).resolve().parent.parent / 'checks'))
from repository import MARK, TESTS, TOP, Case, binary, cases_in, cases_of, words_if_none  # noqa: E402, F401

# What takes the place of the status of a program that did not end in time.
NO_END = 'no end'
# The part of a stack that a program is given to show that it needs no more.
SMALL_STACK = 1 << 20


def answer(words, text, program='twe', seconds=60, stack=None):
    """The status of a call of a program, and what it wrote on out and on err."""
    def limit():
        resource.setrlimit(resource.RLIMIT_STACK, (stack, stack))

    try:
        ran = subprocess.run([binary(program), *words], input=text, capture_output=True, timeout=seconds, preexec_fn=limit if stack else None)
    except subprocess.TimeoutExpired:
        return NO_END, b'', b''
    return ran.returncode, ran.stdout, ran.stderr


def numbers_in(words, defaults):
    """The numbers that the words are, and the defaults of those that are left out; or None if they are something else."""
    if len(words) > len(defaults) or not all(word.isdigit() for word in words):
        return None
    return [*map(int, words), *defaults[len(words):]]
