"""The reader of mutants for `.ci/mutants`: what each changes, and what the prover has to refuse of it."""
import functools
import pathlib
import re
from typing import NamedTuple

from sources import Sources, functions, root, tables

class Function(NamedTuple):
    """A function of a file: its name, its type, the folder of its proofs, and the numbers of its first line, of the one
    where its body begins, and of its last line. A star says that a method is one of a trait."""
    file: str
    name: str
    owner: str
    folder: str
    first: int
    body: int
    last: int


class Mutant(NamedTuple):
    """A mutant: its crate, its name (`statement.NAME` for a law in a form in which it is false), the lines that it
    changes, by file and number, the function whose proof has to fail, if it names one, and the clause that refuses it,
    if it is an edit."""
    crate: str
    name: str
    lines: dict
    function: str
    refused_by: str


def source(crate, file):
    return Sources().text(f'crates/{crate}/{file}')


def changes(sources, crate, edit):
    """Returns the lines that an edit changes, and the function and the clause that it names. Each pair of lines applies
    to what the earlier ones made."""
    texts, file, old, function, clause = {}, None, None, '', ''
    for line in edit:
        head, _, text = line.partition(': ')
        if head == 'file':
            file = text.strip()
            texts.setdefault(file, sources.text(f'crates/{crate}/{file}'))
        elif head == 'old':
            old = text
            if texts[file].count(old) != 1:
                raise ValueError(f'{texts[file].count(old)} times in {file}, and not once: {old}')
        elif head in ('new', 'new:') and old:
            texts[file], old = texts[file].replace(old, text), None
        elif head == 'function':
            function = text
        elif head == '# refused by':
            clause = text
        else:
            raise ValueError(f'no line of a mutant: {line}')
    was = {file: sources.text(f'crates/{crate}/{file}').split('\n') for file in texts}
    changed = {(file, at): now for file, text in texts.items()
               for at, (old, now) in enumerate(zip(was[file], text.split('\n')), 1) if old != now}
    if not changed:
        raise ValueError('it changes nothing')
    return changed, function, clause


def read(sources, crates):
    """Returns the mutants of these crates, and what is said of those that cannot be applied."""
    found, wrong = {}, []
    for crate in crates:
        for name, edit in sources.mutants(crate):
            try:
                if (crate, name) in found:
                    raise ValueError('a second one of this name')
                found[crate, name] = mutant = Mutant(crate, name, *changes(sources, crate, edit))
                named(mutant)
            except (ValueError, OSError) as error:
                wrong.append(f'{crate} {name}: {error}')
    return list(found.values()), wrong


def crates_with_mutants(sources):
    return sorted({it.split('/')[1] for it in sources.files(r'crates/\w+/must-fail/[\w.-]+')})


def module_of(file):
    return [part for part in pathlib.Path(file).with_suffix('').parts[1:] if part not in ('lib', 'main')]


@functools.lru_cache(maxsize=None)
def home_of(crate, file, owner):
    """Returns the file that defines the type of a method in this file, or this one if none does: the folder of a proof
    is that of the type. Methods of traits stand with their block."""
    files = [file, *(it.split('/', 2)[2] for it in Sources().code(crate))] if '*' not in owner else []
    form = rf'(?m)^(pub(\(\w+\))? )?(struct|enum) {owner}\b'
    return next((it for it in files if re.search(form, source(crate, it))), file)


@functools.lru_cache(maxsize=None)
def functions_of(crate, file):
    """Returns the functions of a file, with the folders of their proofs."""
    found = []
    for it in functions(source(crate, file)):
        home = home_of(crate, file, it.owner) if it.owner else file
        folder = '/'.join([*module_of(home), *([it.owner] if it.owner else []), it.name])
        found.append(Function(file, it.name, it.owner or '', folder, it.first, it.body, it.last))
    # Where two have one folder by these rules, as conversions of a type have, only lines say which one fails.
    folders = [it.folder for it in found]
    return [it if folders.count(it.folder) == 1 else it._replace(folder='-') for it in found]


def named(mutant):
    """Returns the function that a mutant names, as `name` or `Type::name`, or none."""
    owner, _, name = mutant.function.rpartition('::')
    files = {file for file, _ in mutant.lines if file.startswith('src/')}
    found = [it for file in files for it in functions_of(mutant.crate, file)
             if it.name == name and (not owner or re.fullmatch(rf'{owner}(\w*\*)?', it.owner))]
    if name and len(found) != 1:
        raise ValueError(f'{len(found)} functions in the files that it changes, and not one: {mutant.function}')
    return found[0] if found else None


def changed_by(crate, lines):
    """Returns the functions that these lines change. Returns none if they change more: other items, imports but for
    further words of clauses, or the head of a method of a trait, which is called without its name."""
    found = set()
    for (file, at), now in lines.items():
        was = source(crate, file).split('\n')[at - 1]
        if re.match('ghost use ', was) and set(re.findall(r'[^\s{},]+', was)) <= set(re.findall(r'[^\s{},]+', now)):
            continue
        within = [it for it in (functions_of(crate, file) if file.startswith('src/') else [])
                  if it.first <= at <= it.last]
        if not within or '*' in within[-1].folder and at < within[-1].body:
            return set()
        found.add(within[-1])
    return found


class Part:
    """What the prover has to refuse by itself: a mutant or, if it changes several functions and names none, what it
    changes of one of them. `function` is the one whose proof has to fail, or none if any may."""

    def __init__(self, mutant, lines, function, name=''):
        self.mutant, self.lines, self.function = mutant, lines, function
        self.name = f'{mutant.crate} {mutant.name}{name}'

    @functools.cached_property
    def changed(self):
        return changed_by(self.mutant.crate, self.lines)

    @functools.cached_property
    def names(self):
        return {it.name for it in [*self.changed, self.function]}

    @functools.cached_property
    def words(self):
        """The words of its functions, before the change and after it, and of their proofs."""
        found, crate = set(), self.mutant.crate
        for function in [*self.changed, self.function]:
            span = range(function.first, function.last + 1)
            lines = source(crate, function.file).split('\n')
            files = (root / 'crates' / crate / 'proofs').glob(f'{function.folder}/*.antt')
            texts = [lines[at - 1] for at in span] + [self.lines.get((function.file, at), '') for at in span]
            found |= {word for it in [*texts, *(it.read_text() for it in files)] for word in re.findall(r'\w+', it)}
        return found


def parts_of(mutant):
    """Returns what has to be refused of a mutant."""
    one, changed = named(mutant), sorted(changed_by(mutant.crate, mutant.lines))
    if one or len(changed) < 2:
        return [Part(mutant, mutant.lines, one or next(iter(changed), None))]

    def is_in(place, function):
        return place[0] == function.file and function.first <= place[1] <= function.last

    return [Part(mutant, {place: now for place, now in mutant.lines.items()
                          if is_in(place, function) or not any(is_in(place, it) for it in changed)},
                 function, f' ({function.folder})') for function in changed]


def can_join(part, others):
    """Returns whether a part can be in one check with these. None of their functions is the same or names another, so
    that a changed contract is not another's reason to fail; and where they change the same import they write the
    same."""
    for other in others:
        same = part.lines.keys() & other.lines.keys()
        if part.changed & other.changed or any(part.lines[it] != other.lines[it] for it in same):
            return False
        if part.names & other.words or other.names & part.words:
            return False
    return True


def rounds_of(parts):
    """Divides the parts of mutants of a crate into those of each check, and those that are tried alone."""
    rounds, alone = [], []
    for part in parts:
        if not part.changed or not part.function:
            alone.append(part)
            continue
        joined = next((it for it in rounds if can_join(part, it)), None)
        if joined is None:
            rounds.append(joined := [])
        joined.append(part)
    return rounds, alone


def has_clause(sources, mutant):
    """Returns whether a function of the crate has the clause that an edit names: `NAME of FUNCTION`, or `ensures of
    FUNCTION` for one without a name."""
    clause, _, function = mutant.refused_by.partition(' of ')
    owner, _, name = function.rpartition('::')
    form = rf'(?m)^ *((requires|ensures)\b\*? *{clause}|{clause}) *\{{'
    for path in sources.code(mutant.crate):
        lines = sources.text(path).split('\n')
        for it in functions(sources.text(path)):
            if it.name == name and (not owner or re.fullmatch(rf'{owner}(\w*\*)?', it.owner or '')):
                if re.search(form, '\n'.join(lines[it.first - 1:it.last])):
                    return True
    return False


def check_edits(sources, mutants):
    """Checks that each edit names a clause that there is, and that the table of CONTRIBUTING has it, and no other."""
    edits = {re.sub(r'crates/(\w+)/must-fail/(.*)\.edit', r'\1/\2', it)
             for it in sources.files(r'crates/\w+/must-fail/[\w-]+\.edit')}
    listed = {row[0].strip('`'): row[1] for _, head, rows in tables(sources.text('CONTRIBUTING.md'))
              if head == '| mutant | refused by |' for row in rows}
    wrong = [f'CONTRIBUTING lists the edit {it}, which is not there' for it in sorted(listed.keys() - edits)]
    for mutant in mutants:
        edit, clause = f'{mutant.crate}/{mutant.name}', '`' + mutant.refused_by.replace(' of ', '` of `') + '`'
        if edit not in edits:
            continue
        if not has_clause(sources, mutant):
            wrong.append(f'{edit} names no clause of a function: {mutant.refused_by}')
        elif clause not in listed.get(edit, ''):
            wrong.append(f'CONTRIBUTING does not list {edit} with {clause}')
    return wrong
