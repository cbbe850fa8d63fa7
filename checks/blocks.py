"""What checks/documents and checks/layouts share: the fenced blocks of a document, and a manual page read as a document."""
import re

# How a manual page writes what stands in a block, the longest first.
ROFF = {r'\(aq': "'", r'\(ga': '`', r'\(ha': '^', r'\(ti': '~', r'\(dq': '"', r'\-': '-', r'\&': '', r'\e': '\\'}


def plain(line):
    """A line of a block of a manual page, as it is shown."""
    return re.sub('|'.join(map(re.escape, ROFF)), lambda found: ROFF[found[0]], line)


def document_of(page):
    """A manual page as a document with the same blocks and headings, line for line."""
    lines, fence, is_open = [], None, False
    for line in page.splitlines():
        if line == '.EX' and fence:
            is_open, shown = True, f'```{fence}'
        elif line == '.EE' and is_open:
            is_open, shown = False, '```'
        elif is_open:
            shown = plain(line)
        else:
            shown = f'# {line[4:]}' if re.match(r'\.S[HS] ', line) else ''
        comment = re.fullmatch(r'\.\\" ((?:twe|console)\b.*)', line)
        fence = comment[1] if comment else None
        lines.append(shown)
    return '\n'.join(lines) + '\n'


def text_of(path):
    """The text of a document, or of a manual page as a document."""
    return document_of(path.read_text()) if path.suffix == '.1' else path.read_text()


def blocks_of(document):
    """The fenced blocks and the headings of a document, each with the number of its line."""
    kind, start, lines = None, 0, []
    for number, line in enumerate(document.splitlines(), 1):
        if kind is not None:
            if line == '```':
                yield start, kind, lines
                kind = None
            else:
                lines.append(line)
        elif line.startswith('```'):
            kind, start, lines = line[3:].strip(), number, []
        elif re.match(r'#+ ', line):
            yield number, '#', [line.lstrip('# ')]
    if kind is not None:
        yield start, 'open', lines
