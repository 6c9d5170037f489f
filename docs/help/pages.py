#!/usr/bin/env python3
"""Makes the manual page of a program, or what bash completes for it, from its help. `./install` makes both.

    docs/help/pages.py man < docs/help/lexer.txt | man -l -
    source <(docs/help/pages.py bash < docs/help/lexer.txt)"""
import re
import sys

# Characters that roff would show otherwise.
SHOWN = {'\\': r'\e', '-': r'\-', "'": r'\(aq', '`': r'\(ga', '^': r'\(ha', '~': r'\(ti', '"': r'\(dq'}
# A term, two spaces, and what is said of it; the names of an option; a word that no line of a page has room for.
ITEM = re.compile(r'(\S+(?: \S+)*)  +(\S.*)')
NAME = re.compile(r'(?<![\w-])--?[A-Za-z][\w-]*')
LONG = 60


def depth(line):
    return len(line) - len(line.lstrip())


def is_heading(line):
    return re.fullmatch(r'[A-Z][a-z]*:', line)


def usage_of(said):
    """How the program is called, a line for each way, and the other lines of its help."""
    lines = said.rstrip().split('\n')
    first = next(at for at, line in enumerate(lines) if line.lower().startswith('usage: '))
    last = lines.index('', first)
    return [lines[first][7:], *(line.strip() for line in lines[first + 1:last])], [*lines[:first], *lines[last:]]


def parts_of(lines):
    """The parts of a help: a heading, and its lines. The lines after those of a heading that are set in, and after an
    empty line, are of no heading."""
    parts = [('Description', [])]
    for before, line in zip(['', *lines], lines):
        heading, under = parts[-1]
        of_options = heading in ('Arguments', 'Options')
        ends = not before and line and depth(line) == 0 and not line.startswith('-') and (
            of_options or heading in ('Status', 'Examples') and under and depth(under[0]) > 0)
        if is_heading(line):
            parts.append((line[:-1], []))
        elif line.startswith('Status: '):
            parts.append(('Status', [line[8:]]))
        elif ends or heading == 'Status' and not before and line:
            parts.append(('Notes', [line]))
        else:
            under.append(line)
    return parts


def escaped(line):
    """A line of text as roff shows it. A word that is too long for a line may be broken between characters."""
    words = [''.join(SHOWN.get(it, it) + r'\:' * (len(word) > LONG) for it in word) for word in line.split(' ')]
    shown = ' '.join(words)
    return r'\&' + shown if shown[:1] in ('.', "'") else shown


def item_of(heading, line):
    """A term and what is said of it, if the line begins with one."""
    text = line.strip()
    found = ITEM.fullmatch(text)
    if heading == 'Examples':
        return (text, '') if depth(line) < 4 else None
    if heading in ('Arguments', 'Options'):
        begins = text[:1] in ('-', '[') and depth(line) < 8
        return (found.groups() if found else (text, '')) if begins else None
    return found.groups() if found and not text.endswith('.  ') else None


def shown_part(heading, lines):
    """A part as roff has it: a paragraph for each term, and for lines with no empty line between them."""
    title = {'Status': 'Exit status'}.get(heading, heading)
    page, is_open = [f'.SH {title.upper()}'], True
    for line in lines:
        item = item_of(heading, line)
        if item:
            page += ['.TP', f'.B {escaped(item[0])}', *([escaped(item[1])] if item[1] else [])]
        elif not line:
            page.append('')
        else:
            if page[-1] == '' or depth(line) == 0 and is_open is False:
                page.append('.PP')
            page.append(escaped(line.strip()))
        is_open = not item
    page = [line for line in page if line]
    # A term of which nothing is said is a paragraph.
    return ['.PP' if it == '.TP' and after[:1] in ('', '.') else it for it, after in zip(page, [*page[2:], '', ''])]


def does_of(lines):
    """The first sentence of a help, without its point, and the lines after it."""
    lines = lines[next(at for at, line in enumerate(lines) if line):]
    text = ' '.join(lines[:[*lines, ''].index('')])
    does = re.match(r'.*?(?=\.(?: |$))', text)[0]
    at = next(at for at in range(len(lines)) if len(' '.join(lines[:at + 1])) > len(does))
    rest = ' '.join(lines[:at + 1])[len(does) + 1:].strip()
    return does, [*([rest] if rest else []), *lines[at + 1:]]


def manual(program, said):
    """The manual page of the program with this help."""
    ways, lines = usage_of(said)
    does, rest = does_of(lines)
    page = [f'.TH {program.upper()} 1', '.nh', '.ad l', '.ss 12 0', '.SH NAME', f'{program} \\- {escaped(does)}', '.SH SYNOPSIS']
    page += [line for way in ways for line in (f'.B {escaped(way)}', '.br')][:-1]
    for heading, under in parts_of(rest):
        if any(under):
            page += shown_part(heading, under)
    return '\n'.join([*page, ''])


def options_of(said):
    """Each option of a help: its names, whether its value is the next word, and the values that it may have."""
    lines = said.split('\n')
    for at, line in enumerate(lines):
        item = item_of('Options', line)
        if item and item[0].startswith('-'):
            term, text = item
            names = NAME.findall(term)
            values = re.search(r'\[possible values: ([^]]*)\]', text)
            takes = re.search(r'[\w-] <?[A-Z]+>?$', term) is not None
            yield names, takes, values[1].split(', ') if values else []


def completed(words, files=False):
    """Takes what `compgen` offers of these words, and of files, for the word that was begun: one in a line."""
    what = ' '.join([f'-W "{" ".join(words)}"'] * bool(words) + ['-f'] * files)
    return f'mapfile -t COMPREPLY < <(compgen {what} -- "$2")'


def completions(program, said):
    """What bash runs to complete the words of the program: its options, the values of those that have few, the commands
    that its usage names, and files."""
    options = list(options_of(said))
    names = [name for of_one, _, _ in options for name in of_one]
    commands = [word for way in usage_of(said)[0] for word in re.findall(r'(?<=[ |])[a-z]+(?= )', way)]
    cases = [('|'.join(of_one), completed(values)) for of_one, takes, values in options if takes and values]
    free = [name for of_one, takes, values in options if takes and not values for name in of_one]
    cases += [('|'.join(free), completed([], True))] * bool(free)
    return '\n'.join([
        f'_{program}() {{', '    case $3 in', *(f'    {names}) {does}; return ;;' for names, does in cases), '    esac',
        f'    if [[ $2 == -* ]]; then {completed(names)}; else {completed(commands, True)}; fi',
        '}', f'complete -o filenames -F _{program} {program}', ''])


def program_of(said):
    return usage_of(said)[0][0].split()[0]


MAKES = {'man': manual, 'bash': completions}

if __name__ == '__main__':
    if len(sys.argv) != 2 or sys.argv[1] not in MAKES:
        sys.exit('usage: docs/help/pages.py man|bash < HELP')
    text = sys.stdin.read()
    print(MAKES[sys.argv[1]](program_of(text), text), end='')
