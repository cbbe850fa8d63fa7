"""What the scripts of checks/, bench/ and stress/ share: where things stand in the repository, its crates and programs, the rules of
the language, its cases, and how a self-test says what it showed."""
import functools
import pathlib
import re
import subprocess

TOP = pathlib.Path(__file__).resolve().parent.parent
CRATES, TESTS = TOP / 'crates', TOP / 'tests'
# The line between a text and a journal, and between the programs of a batch.
MARK = b'%%\n'
# The names of the rules and faults, as docs/LANGUAGE.md has them, and the statuses, as man/twe.1 has them.
RULES = [f'S{n}' for n in range(1, 7)] + [f'N{n}' for n in range(1, 10)] + [f'E{n}' for n in range(1, 9)]
FAULTS = ['DivZero', 'Index', 'Fuel', 'Depth', 'TaskLimit']
STATUSES = range(0, 12)
# A line of programs.txt: a program, its crate, the words of a case that has none, and its usage; and the line above it with its sentence.
PROGRAM = re.compile(r'^# ([a-z_]+): (.*)\n\1 ([a-z0-9_]+)([^:\n]*):(.*)$', re.M)
# Lines of crates.txt: a crate, the heading of a room, and what stands above a crate.
CRATE_LINE = re.compile(r'^([a-z]\w*)([^:\n#]*):.*$', re.M)
ROOM_LINE, COMMENT_LINE = re.compile(r'^# ([A-Z][a-z]+): (.*)$'), re.compile(r'^# ([a-z]\w*): (.*)$')
# The beginning of an import, or a declaration of a module, in src/ and specs/.
IMPORT = re.compile(r'(?:pub(?:\(crate\))? )?(?:(?:ghost )?use\b|mod \w+;?$)')


def crates_in(top=TOP):
    """The crates of crates.txt in its order, each with those that it names."""
    lines = [line.partition(':') for line in (top / 'crates.txt').read_text().splitlines() if ':' in line and line[0] != '#']
    return {head.split()[0]: uses.split() for head, _, uses in lines}


def rooms_of(top):
    """The rooms of crates.txt: the name and what it is for, and its crates, each with what it is for, or None."""
    rooms, comment = [], None
    for line in (top / 'crates.txt').read_text().splitlines():
        if found := ROOM_LINE.match(line):
            rooms.append((found[1], found[2], []))
        elif found := CRATE_LINE.match(line):
            rooms = rooms or [('', '', [])]
            rooms[-1][2].append((found[1], comment[2] if comment and comment[1] == found[1] else None))
        comment = COMMENT_LINE.match(line)
    return rooms


class Program:
    """What programs.txt says of a program."""

    def __init__(self, name, sentence, crate, words, usage):
        self.name, self.sentence, self.crate, self.words, self.usage = name, sentence, crate, words.split(), usage

    def usage_line(self):
        return f'usage: {self.name}{self.usage}\n'


@functools.lru_cache
def programs():
    """The programs by their names, in the order of programs.txt."""
    return {found[0]: Program(*found) for found in PROGRAM.findall((TOP / 'programs.txt').read_text())}


def words_if_none(program):
    """The words of a case that has none, one a line."""
    return ''.join(f'{word}\n' for word in programs()[program].words)


def binary(program):
    """The path of a built program."""
    crate = programs()[program].crate
    return CRATES / crate / 'out' / crate


def build(program):
    """Proves and builds a program, unless it is there. Returns the status."""
    return subprocess.run([TOP / 'bin/build', programs()[program].crate], stdin=subprocess.DEVNULL).returncode


def documents(top=TOP):
    """The paths of the documents."""
    return [*sorted(top.glob('*.md')), *sorted((top / 'docs').glob('*.md'))]


def manuals(top=TOP):
    """The paths of the manual pages."""
    return sorted((top / 'man').glob('*.1'))


def lines_that_count(text):
    """The lines of a file of src/ or specs/ without blank ones, comments and imports, each with its number. An import goes on until its brackets are closed."""
    depth = 0
    for number, line in enumerate(text, 1):
        stripped = line.strip()
        if depth or IMPORT.match(stripped):
            depth += stripped.count('{') - stripped.count('}')
        elif stripped and not stripped.startswith(('//', '--')):
            yield number, stripped


class Case:
    """A text NAME.twe with the files beside it that tests/README.md names."""

    def __init__(self, path, words=''):
        """`words` are those of the case if it has none, one a line."""
        self.path, self.words_if_none = pathlib.Path(path), words

    def part(self, ending, otherwise):
        path = self.path.with_suffix(ending)
        return path.read_bytes() if path.exists() else otherwise

    def words(self):
        return self.part('.words', self.words_if_none.encode()).decode().splitlines()

    def text(self):
        return self.path.read_bytes() * int(self.part('.times', b'1'))

    def answer(self):
        """The status, and what is written on out and on err."""
        return int(self.part('.status', b'0')), self.part('.out', b''), self.part('.err', b'')

    def threads(self):
        """How many threads have to be at work at once; 0 if nothing is asked."""
        return int(self.part('.threads', b'0'))


def cases_in(folder, words=''):
    return [Case(path, words) for path in sorted(folder.rglob('*.twe'))]


def cases_of(program):
    """The cases of a program: those of its folder of tests/, and the examples for `twe`."""
    folders = [TESTS / program] + [TOP / 'examples'] * (program == 'twe')
    return [case for folder in folders for case in cases_in(folder, words_if_none(program))]


def status_of(script, shown):
    """The status of a self-test of a script, which says by name what it could not show."""
    for what, is_shown in shown.items():
        if not is_shown:
            print(f'{script}: self-test FAILED: {what}')
    return 0 if shown and all(shown.values()) else 1
