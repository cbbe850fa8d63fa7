"""What the scripts of bench/ share: how a command is measured, and the texts that several of them run.

None of these scripts is part of the gate. They need the built programs, which bin/build makes, and their times mean something only on a
machine that does nothing else.
"""
import importlib.machinery
import importlib.util
import os
import pathlib
import re
import resource
import subprocess
import sys
import tempfile
import threading
import time
from dataclasses import dataclass

sys.path.insert(0, str(pathlib.Path(__file__).resolve().parent.parent / 'checks'))
from repository import CRATES, MARK, TOP, binary  # noqa: E402, F401

SECONDS = 600


@dataclass
class Run:
    """What a command wrote, how it ended (None: not in time), its time by the clock and its processor time in seconds, and its most
    memory in MiB."""
    status: int
    out: bytes
    err: bytes
    clock: float
    spent: float
    memory: float


def run(command, text=b'', seconds=SECONDS, stack=None):
    """Runs a command on a text, with a stack of so many bytes."""
    def limit():
        resource.setrlimit(resource.RLIMIT_STACK, (stack, stack))

    with tempfile.TemporaryFile() as given, tempfile.TemporaryFile() as out, tempfile.TemporaryFile() as err:
        given.write(text)
        given.seek(0)
        began = time.monotonic()
        child = subprocess.Popen(command, stdin=given, stdout=out, stderr=err, preexec_fn=limit if stack else None)
        timer = threading.Timer(seconds, child.kill)
        timer.start()
        _, status, used = os.wait4(child.pid, 0)
        clock, is_over = time.monotonic() - began, not timer.finished.is_set()
        timer.cancel()
        child.returncode = os.waitstatus_to_exitcode(status)
        out.seek(0)
        err.seek(0)
        return Run(child.returncode if is_over else None, out.read(), err.read(), clock, used.ru_utime + used.ru_stime, used.ru_maxrss / 1024)


def done(command, text=b'', **how):
    """Runs a command that has to end with status 0."""
    made = run(command, text, **how)
    if made.status != 0:
        words = ' '.join(str(word) for word in command)
        sys.exit(f'{pathlib.Path(sys.argv[0]).name}: {words}: status {made.status}, {made.err.decode(errors="replace")[:200]}')
    return made


def least(command, text, times):
    """The last of so many runs, with the least time by the clock and the least processor time of all."""
    made = [done(command, text) for _ in range(times)]
    return Run(0, made[-1].out, made[-1].err, min(it.clock for it in made), min(it.spent for it in made), max(it.memory for it in made))


def instructions(command, text):
    """How many instructions a command takes on a text, which has to end with status 0, as valgrind counts them."""
    counted = done(['valgrind', '--tool=cachegrind', '--cache-sim=no', '--cachegrind-out-file=/dev/null', *command], text)
    return int(re.search(r'I\s+refs:\s+([\d,]+)', counted.err.decode())[1].replace(',', ''))


def growth_shapes():
    """The shapes of bench/growth, by name."""
    loader = importlib.machinery.SourceFileLoader('growth', str(TOP / 'bench' / 'growth'))
    growth = importlib.util.module_from_spec(importlib.util.spec_from_loader('growth', loader))
    loader.exec_module(growth)
    return growth.SHAPES


# Texts. `tasks` is how many tasks `main` makes, or a chain has.

def independent(tasks):
    """Tasks that touch nothing in common."""
    return f'''task int work(int n) pure {{ return n * n; }}
task void main() pure {{
  int i = 0;
  while (i < {tasks}) {{ future f = work.executeLater(i); i = i + 1; }}
}}
'''.encode()


def adding(tasks, cells, turns=0):
    """Tasks that add to one of so many cells each, after a loop of so many turns, all made first."""
    loop = f'int i = 0; while (i < {turns}) {{ i = i + 1; }} ' if turns else ''
    return f'''region D;
int d[{cells}] in D;
task void add(int j) writes D:[j] {{ {loop}d[j] = d[j] + 1; }}
task void main() pure {{
  int t = 0;
  while (t < {tasks}) {{ final int j = t % {cells}; future f = add.executeLater(j); t = t + 1; }}
}}
'''.encode()


def awaited(tasks):
    """Tasks that add to one cell, made and waited for one by one."""
    return f'''region A;
int x in A;
task void add() writes A {{ x = x + 1; }}
task void main() writes A {{
  int i = 0;
  while (i < {tasks}) {{ future f = add.executeLater(); f.getValue(); i = i + 1; }}
}}
'''.encode()


def chain(tasks):
    """Tasks of which each makes the next and waits for it."""
    return f'''region A;
int x in A;
task void go(int k) writes A {{
  if (k > 0) {{ final int m = k - 1; future f = go.executeLater(m); f.getValue(); }}
  x = x + 1;
}}
task void main() writes A {{ future f = go.executeLater({tasks - 1}); f.getValue(); }}
'''.encode()


def load(pairs):
    """The program of `twe load`: each task spawns a child with a cell of its own, joins it, and adds to one shared cell."""
    cells = ''.join(
        f'int c{i} in R:[{i}] = {7 * i % 1000};\n'
        f'deterministic task void u{i}() writes R:[{i}] {{ c{i} = c{i} * 3 + {i}; }}\n'
        f'task void t{i}() writes R:[{i}], S {{ future f = u{i}.spawn(); f.join(); s = s + c{i}; }}\n'
        for i in range(pairs)
    )
    makes = ''.join(f'future f{i} = t{i}.executeLater();\n' for i in range(pairs))
    return f'region R, S;\nint s in S;\n{cells}task void main() pure {{\n{makes}}}\n'.encode()
