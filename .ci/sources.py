"""The one reader of sources and pages for the text checks. `Sources` has the files. The other functions take the text
of a file, and return what is in it: of a source its lines, functions, public items or definitions; of a page its
blocks, headings, links and tables. `command` runs a check as a program."""
import functools
import itertools
import os
import pathlib
import re
import sys
from typing import NamedTuple

root = pathlib.Path(__file__).resolve().parent.parent

# Parts of the library, in the order in which the pages show them: a heading, the path that callers name, the crate of
# the sources, the types, and the functions outside of types. A path of a module of the crate stands for its items only.
GROUPS = [
    ('One regex', 'nfa_meta', 'nfa_meta',
     'Regex RegexSet SetMatches Builder Config BuildError FindMatches CapturesMatches HalfMatches Split SplitN '
     'NoExpand Replacer', 'extract'),
    ('Templates of replacements', 'nfa_meta::interpolate', 'nfa_meta', 'Template Part TemplateError', ''),
    ('The PikeVM', 'nfa_engines::pikevm', 'nfa_pikevm', 'PikeVM Cache Config Builder FindMatches CapturesMatches', ''),
    ('The backtracker', 'nfa_engines::backtrack', 'nfa_backtrack',
     'BoundedBacktracker Cache Config Builder TryFindMatches TryCapturesMatches', 'min_visited_capacity'),
    ('The engine that chooses', 'nfa_choice', 'nfa_choice', 'Choice Engine ChoiceMatches ChoiceCaptures', ''),
    ('The engine for ends of matches', 'nfa_choice::hybrid', 'nfa_choice', 'Hybrid Engine HalfMatches', ''),
    ('Items of half matches, for engines', 'nfa_choice::half_items', 'nfa_choice', '', 'half_span half_item'),
    ('The compiler', 'nfa_compiler', 'nfa_compiler', 'Compiler Config SyntaxError CompileError OnlyPattern',
     'has_empty_loop'),
    ('What is asked and answered', 'nfa_engines', 'regex_search_core',
     'Input Match HalfMatch Span Captures CapturesPatternIter GroupInfo PatternSet PatternSetIter PatternID StateID '
     'NonMaxUsize Anchored MatchKind MatchError Refused', ''),
    ('NFAs', 'nfa_engines', 'thompson_nfa', 'NFA State Transition Look BuildError Flaw Referrer',
     'first_flaw look_matches'),
    ('Errors of searches', 'nfa_engines::error', 'nfa_search_base', 'SearchError', ''),
    ('Iteration over your own finder', 'nfa_engines::iter', 'nfa_search_base',
     'Searcher Offered TryFoundIter FoundIter TryCapturesIter CapturesIter', ''),
    ('Matches that split a codepoint', 'nfa_engines::empty', 'nfa_search_base', '',
     'skip_splits_fwd skip_splits_fwd_by_ref skip_splits_rev skip_splits_rev_by_ref'),
    ('Whether an NFA records its bounds', 'nfa_facts::match_spans', 'nfa_facts', '', 'records_match_spans'),
    ('The bytes that each match begins with', 'nfa_facts::literal', 'nfa_facts', 'Literals FewBytes RequiredBytes',
     'literal_prefix find_prefix'),
    ('Fewer captures', 'nfa_facts::captures', 'nfa_facts', 'WhichCaptures', 'keep_captures'),
    ('The lazy DFA', 'nfa_lazy_dfa', 'nfa_lazy_dfa', 'DFA Cache Config Builder StopError Window', ''),
    ('Scans by steps, for determinizers', 'nfa_lazy_dfa::determinize::closure', 'nfa_lazy_dfa', '',
     'closure step pattern_by_kind kept'),
    ('Half matches by steps', 'nfa_lazy_dfa::determinize::scan', 'nfa_lazy_dfa', '', 'find_half scan_half'),
    ('What a compiled pattern finds, at the values of a call', 'nfa_compiler::calls', 'nfa_compiler', '',
     'match_of_text is_match_of_text matches_of_text match_in_str is_match_in_str matches_in_str named_group_in_str '
     'named_group_of_text'),
    ('What a written pattern finds', 'nfa_compiler::written', 'nfa_compiler', '',
     'compile match_of_pattern is_match_of_pattern matches_of_pattern named_group_of_pattern escaped_text_finds_itself'),
]

# Crates that have public names which no group lists: those names, or none for all, which only engines use.
FOR_ENGINES = {'nfa_search_base': None}

# The modules of laws, each with the crate of its source: empty functions whose contracts are theorems.
LAWS = [('nfa_engines::laws', 'nfa_engines'), ('nfa_choice::laws', 'nfa_choice'),
        ('nfa_engines::iter::laws', 'nfa_search_base'), ('nfa_facts::match_spans::laws', 'nfa_facts'),
        ('nfa_facts::literal::laws', 'nfa_facts'), ('nfa_facts::captures::laws', 'nfa_facts'),
        ('nfa_onepass::laws', 'nfa_onepass'), ('nfa_compiler::laws', 'nfa_compiler'),
        ('nfa_lazy_dfa::determinize::laws', 'nfa_lazy_dfa'), ('nfa_meta::laws', 'nfa_meta')]


def kept(read):
    """Makes a generator of a text return a list, and keeps what it has read."""
    return functools.cache(lambda text: list(read(text)))


# The line of crates.txt after which the crates of a user's own come.
OWN = '# Crates of your own'


def crates_in(text):
    """The lines of this crates.txt: what each crate of the repository depends on, and each of a user's own."""
    for part in (text + OWN).split(OWN, 1):
        lines = [line.split(':') for line in part.splitlines() if re.match(r'\w', line)]
        yield {name.split()[0]: rest.split() for name, rest in lines}


@functools.cache
def own_crates():
    """The crates of a user's own, which no check looks at."""
    return list(crates_in(text_at('crates.txt')))[1]


@functools.cache
def paths():
    """The paths of all files, without what is built and without the crates of a user's own, in order."""
    found = []
    for folder, folders, names in os.walk(root):
        folders[:] = [it for it in folders if it not in ('out', 'target', '.git', '__pycache__')]
        if pathlib.Path(folder) == root / 'crates':
            folders[:] = [it for it in folders if it not in own_crates()]
        found += [os.path.relpath(os.path.join(folder, name), root) for name in names]
    return sorted(found, key=lambda it: it.split('/'))


@functools.cache
def text_at(path):
    return (root / path).read_text()


class Sources:
    """The files by their paths, as they are, or with other texts for some of them."""

    def __init__(self, changed=None):
        self.changed = changed or {}

    def text(self, path):
        return self.changed[path] if path in self.changed else text_at(path)

    def files(self, form):
        """The paths of this form, in order."""
        return [it for it in paths() if re.fullmatch(form, it)]

    def code(self, crate, name=r'\w+'):
        """The files of code of a crate."""
        return self.files(rf'crates/{crate}/src/(\w+/)*{name}\.rt')

    def crates(self):
        """What each crate of crates.txt depends on."""
        return next(crates_in(self.text('crates.txt')))

    def pages(self):
        """The pages of the library, for users and for those who change it."""
        return self.files(r'(docs/)?[^/]+\.md')

    def items(self, files):
        """The public items of these files, those of the main files first."""
        main = {'engine.rt', 'search.rt', 'choose.rt', 'hybrid.rt', 'compiler.rt', 'nfa.rt', 'regex.rt'}
        files = sorted(files, key=lambda it: it.split('/')[-1] not in main)
        return [item for file in files for item in items(self.text(file))]

    def laws(self, path, crate):
        """The laws of the module with this path, in the sources of this crate."""
        file = path.partition('::')[2].replace('::', '/')
        return [it for it in items(self.text(f'crates/{crate}/src/{file}.rt')) if it.kind == 'fn']

    def definitions(self):
        """The definitions of the crates' specs, each after its crate and its file."""
        for path in self.files(r'crates/\w+/specs/\w+\.antt'):
            for it in definitions(self.text(path)):
                yield path.split('/')[1], pathlib.PurePath(path).stem, it

    def mutants(self, crate):
        """The name and the lines of each mutant of a crate."""
        folder = f'crates/{crate}/must-fail/'
        for path in self.files(folder + r'[\w-]+\.edit'):
            yield pathlib.PurePath(path).stem, self.text(path).splitlines()
        if others := self.files(folder + r'others\.md'):
            yield from mutants(self.text(others[0]))


class Item(NamedTuple):
    """A public type or function. A clause is its name, which may be empty, and its text. The parts of a type are its
    variants, or its public fields: the name, what is said of it, and its declaration."""
    kind: str
    owner: str | None
    name: str
    said: list
    signature: str
    requires: list
    ensures: list
    parts: list = []


# Public items, `impl` blocks of types and the ends of blocks, each after its documentation.
PARTS = re.compile(r'(?m)^impl(?:<[^\n]*?>)? (?P<type>\w+)[^\n]*?\{|^\}|^(?P<said>(?: *///[^\n]*\n)*)'
                   r'(?: *#\[[^\n]*\]\n)* *pub (?:const )?(?P<kind>fn|struct|enum|trait) (?P<name>\w+)')
MEMBERS = re.compile(r'(?m)^((?: {4}///[^\n]*\n)*)(?: {4}#\[[^\n]*\]\n)* {4}(?:([A-Z]\w*)|pub (\w+):)[^\n]*')
CLAUSE = re.compile(r'\s*(?://[^\n]*\n\s*)*(requires|ensures)\b\*?\s*(\w*)\s*\{')


def closing(text, at):
    """The index of the brace that closes the one at `at`."""
    depth = 0
    for found in re.compile('[{}]').finditer(text, at):
        depth += 1 if found[0] == '{' else -1
        if depth == 0:
            return found.start()


def contract(text):
    """The signature at the head of the text, and its clauses."""
    end = re.compile(r'\s*\n?\s*(?:requires|ensures\*?)\b|\s*\{').search(text, text.index('(')).start()
    signature = re.sub(r'//[^\n]*', '', text[:end])
    signature = re.sub(r',?\s*\n\s*\)', ')', re.sub(r'\(\s*\n\s*', '(', signature))
    clauses = {'requires': [], 'ensures': []}
    while at := CLAUSE.match(text, end):
        end = closing(text, at.end() - 1) + 1
        clauses[at[1]].append((at[2], ' '.join(text[at.end():end - 1].split())))
    return ' '.join(signature.split()).rstrip(','), clauses['requires'], clauses['ensures']


def comment(lines):
    return [line.strip()[4:] for line in lines.splitlines()]


@kept
def items(text):
    """The public items of a file of code."""
    owner = None
    for at in PARTS.finditer(text):
        if not at['kind']:
            owner = at['type'] if at['type'] and ' for ' not in at[0] else None
            continue
        rest = text[at.start('kind'):]
        if at['kind'] == 'fn':
            yield Item('fn', owner, at['name'], comment(at['said']), *contract(rest))
        else:
            head = re.search(r'[;{(]', rest)
            body = rest[head.start():closing(rest, head.start())] if head[0] == '{' else ''
            parts = [(part[2] or part[3], comment(part[1]), part[0].splitlines()[-1].strip())
                     for part in MEMBERS.finditer(body)]
            yield Item(at['kind'], None, at['name'], comment(at['said']), rest[:head.start()].strip(), [], [], parts)


def module(path, crate):
    """The module of the crate that this path names, as its files have it, or nothing if it names none."""
    return path.removeprefix(f'{crate}::').replace('::', '/') if path.startswith(f'{crate}::') else ''


def files_of(sources, path, crate):
    """The files of a group: those of its module, or those of the crate that are in no other group's module."""
    of = module(path, crate)
    others = [it for _, other, home, *_ in GROUPS if home == crate and (it := module(other, home)) and not of]

    def are_in(file, name):
        return re.match(rf'crates/{crate}/src/{name}[./]', file)

    return [file for file in sources.code(crate)
            if (not of or are_in(file, of)) and not any(are_in(file, it) for it in others)]


def group(sources, path, crate, types, functions):
    """Yields the name of each type of a group, or none, with the item of the type and its functions."""
    found = sources.items(files_of(sources, path, crate))
    for owner in [*types.split(), None]:
        calls = [it for it in found if it.kind == 'fn' and it.owner == owner
                 and (owner or it.name in functions.split())]
        yield owner, next((it for it in found if it.kind != 'fn' and it.name == owner), None), calls


USES = re.compile(r'(?m)^pub use ([\w:]+)::(?:\{([^}]*)\}|(\w+(?: as \w+)?));')


def exports(sources, crate, module='lib'):
    """Yields each name that other crates find in a crate, except in its laws, and the crate that it is from, or none
    if it is this one's."""
    text = sources.text(f'crates/{crate}/src/{module}.rt')
    for path, many, one in USES.findall(text):
        home = path.split('::')[0]
        for name in filter(None, map(str.strip, (many or one).split(','))):
            yield name.split()[-1], None if sources.code(crate, home) else home
    yield from ((it.name, None) for it in items(text) if it.owner is None)
    inner = '' if module == 'lib' else f'{module}/'
    for name in re.findall(r'(?m)^pub mod (\w+);', text):
        if name != 'laws':
            yield from exports(sources, crate, inner + name)


def re_exports(sources, crate):
    """A sentence about what a crate has from other crates, or nothing."""
    names = {}
    for name, home in exports(sources, crate):
        if home:
            names.setdefault(home, []).append(f'`{name}`')
    said = '; '.join(f'{", ".join(these)} of `{home}`' for home, these in names.items())
    return f'Re-exports {said}.' if names else ''


def unlisted(sources):
    """Yields the crate and the name of each public item that no group lists."""
    listed = {}
    for _, _, crate, types, functions in GROUPS:
        listed.setdefault(crate, set()).update(types.split(), functions.split())
    for crate, names in listed.items():
        left_out = FOR_ENGINES.get(crate, set())
        for name, home in exports(sources, crate) if left_out is not None else ():
            if not home and name not in names | left_out:
                yield crate, name


def example(said):
    """The lines of the code block of a comment, or none."""
    if '```' not in said:
        return None
    if said.count('```') != 2:
        return ['more than one code block']
    return said[said.index('```') + 1:len(said) - 1 - said[::-1].index('```')]


class Function(NamedTuple):
    """A function of a file: its name, its type if it is a method, with a star if the method is a trait's, and the
    numbers of its first line, of the one where its body begins, and of its last line."""
    name: str
    owner: str | None
    first: int
    body: int
    last: int


@kept
def functions(text):
    """The functions of a file. `rt fmt` lays them out, so indentation says where one ends."""
    lines, owner = text.split('\n'), ''
    for at, line in enumerate(lines):
        held = re.match(r'(?:impl(?:<[^{]*?>)?|pub trait|trait) (?:(\w+)(?:<.*>)? for )?(\w+)', line)
        if held or line == '}':
            owner = held[2] + (f'{held[1] or ""}*' if held[1] or 'trait ' in line else '') if held else ''
        head = re.match(r'( *)(?:pub(?:\([a-z]+\))? )?(?:const )?(?:unsafe )?fn (\w+)', line)
        if head:
            first, last = at, at
            while first and re.match(head[1] + r'(#\[|//)', lines[first - 1]):
                first -= 1
            while not is_end(lines, at, last, head[1]):
                last += 1
            body = next((it for it in range(at, last) if re.match(head[1] + r'(\S.*)?\{$', lines[it])), last)
            yield Function(head[2], owner if head[1] else None, first + 1, body + 1, last + 1)


def is_end(lines, first, at, indent):
    """Returns whether a function of this indentation, with this first line, ends with this line."""
    if at + 1 == len(lines):
        return True
    if at == first and lines[at].endswith(('}', ';')):
        return True
    after = lines[at + 1]
    return re.match(indent + r'(\}|\{\}|\).*;$)', lines[at]) or after.strip() and not after.startswith(indent)


@kept
def lines_within(text):
    """Each line of a file of code, and the line that opens the block which it is in, if that is a condition or a
    `match`."""
    open_lines = []
    for line in text.split('\n'):
        indent = len(line) - len(line.lstrip())
        while line.strip() and open_lines and open_lines[-1][0] >= indent:
            open_lines.pop()
        opens = open_lines[-1][1] if open_lines else ''
        yield line.strip(), opens if re.match(r'(\} )?(if|else|match|while|for|loop|let)\b|.*=>', opens) else ''
        if line.endswith('{'):
            open_lines.append((indent, line.strip()))


class Definition(NamedTuple):
    """A name that `specs` defines for others, with its comment. Definitions without one share that of the one above."""
    name: str
    said: str
    declared: str


DEFINES = re.compile(r' *(?:(?:abbrev|unfoldable) pub|pub (?:abbrev|unfoldable|record|data)) (?!use )([^\s:({]+)')


@kept
def definitions(text):
    """The definitions of a file of specs."""
    comment, fresh = [], []
    for line in text.splitlines()[1:]:
        text = line.strip()
        if text.startswith('--'):
            fresh.append(text[2:].strip())
        elif at := DEFINES.match(line):
            comment = fresh or comment
            yield Definition(at[1], ' '.join(comment), text)
            fresh = []
        else:
            fresh = []


@kept
def mutants(text):
    """The name and the lines of each mutant of a list: a line `body: NAME` begins one, and a line `statement: NAME` a
    law in a form in which it is false, whose name here is `statement.NAME`."""
    parts = re.split(r'(?m)^```\n', text)
    found = re.split(r'(?m)^(body|statement): ([A-Za-z0-9_-]+)\n', parts[1] if len(parts) == 3 else '')
    if len(found) < 4 or found[0]:
        yield 'others.md', ['no mutants between two fences, or a line before the first one']
    for kind, name, lines in zip(found[1::3], found[2::3], found[3::3]):
        yield ('statement.' if kind == 'statement' else '') + name, lines.splitlines()


class Block(NamedTuple):
    """A block of code of a page, its language, and the paragraph before it."""
    lead: str
    language: str
    code: str


@kept
def blocks(text):
    parts = re.split(r'(?m)^```(.*)\n', text)
    return [Block(before.rstrip('\n').rpartition('\n\n')[2], language, code)
            for before, language, code in zip(parts[::4], parts[1::4], parts[2::4])]


def prose(text):
    """A page without its blocks of code."""
    return re.sub(r'```.*?```', '', text, flags=re.S)


def codes(text):
    """The texts in backticks."""
    return re.findall(r'`([^`\n]+)`', text)


def headings(text):
    return re.findall(r'(?m)^#+ (.*)$', text)


def anchor(heading):
    """The anchor of a heading, as hosts of Markdown make it."""
    return re.sub(r'[^\w -]', '', heading.lower()).replace(' ', '-')


def links(text):
    """The targets of the links of a page to other pages."""
    return [it for it in re.findall(r'\]\(([^)\s]+)\)', prose(text)) if '://' not in it]


LINK = re.compile(r'\[(`[^`]*`)\](?:\([^)]*\))?')


def unlinked(text):
    """A text with its links to types and calls as their names."""
    return LINK.sub(r'\1', text)


@kept
def tables(text):
    """The tables of a page: the heading above, the first line, and the cells of each row."""
    heading = ''
    for is_row, lines in itertools.groupby(prose(text).split('\n'), lambda it: it.startswith('|')):
        lines = list(lines)
        if is_row:
            yield heading, lines[0], [list(map(str.strip, re.split(r' \|(?= )', it.strip('|')))) for it in lines[2:]]
        else:
            heading = next((line for line in reversed(lines) if line.startswith('#')), heading)


def report(name, wrong, said):
    """Says what a check found in one line, or ends with what is wrong."""
    if wrong:
        sys.exit(f'{name}: ' + '\n'.join(wrong))
    print(f'{name}: {said}')


def command(file, check, options=None):
    """Runs a check, which returns what is wrong and what to say if nothing is; or one of its options instead."""
    name, words = pathlib.Path(file).name, sys.argv[1:]
    if not words:
        report(name, *check(Sources()))
    elif words[0] in (options or {}):
        options[words[0]](Sources(), *words[1:])
    else:
        sys.exit(f'usage: .ci/{name} [{"|".join(options or {})}]')
