"""Compares nfa.py with `re` on random patterns and texts on which the two agree by their rules, and tests what differs.
Prints "python: passed: N questions", or stops at the first difference. `compare.py N` asks N questions."""
import doctest
import gc
import random
import re
import sys
import threading
import time

import nfa
from details import DETAILS, said

SOURCE = random.Random(5)
ATOMS = ['a', 'b', 'c', '[ab]', '[^a]', '.', r'\d', r'\w', r'\b', '^', 'é', 'ab', r'\.', '(?:b|ca)']
LETTERS = 'abc .1é\n'
TEMPLATES = [r'<\g<0>>', r'\n\t\\', r'\.\0\101', '', r'\1', r'\g<1>1', r'[\1\g<0>]']


def stop(*said):
    sys.exit(' '.join(['python:', *map(str, said)]))


def piece(depth):
    """A part of a pattern. What is repeated matches no empty text, since the two differ in empty rounds."""
    kind = SOURCE.randrange(7 if depth else 3)
    if kind < 3:
        return SOURCE.choice(ATOMS)
    if kind == 3:
        return ''.join(piece(depth - 1) for _ in range(SOURCE.randrange(1, 4)))
    if kind == 4:
        return f'(?:{piece(depth - 1)}|{piece(depth - 1)})'
    if kind == 5:
        return f'({piece(depth - 1)})'
    repeated = SOURCE.choice(['a', 'b', '[ab]', r'\w', 'é', '(?:ab)', '(?:a|bc)'])
    return repeated + SOURCE.choice(['*', '+', '?', '*?', '+?', '??', '{2}', '{1,2}'])


def seen(found):
    return found and (found.span(), found.groups(), found.regs, found.lastgroup)


def ask(pattern, text, flags):
    mine, theirs = nfa.compile(pattern, flags), re.compile(pattern, flags)
    pos = SOURCE.randrange(len(text) + 1)
    for call in ['search', 'match', 'fullmatch']:
        for arguments in [(text,), (text, pos)]:
            got, wanted = seen(getattr(mine, call)(*arguments)), seen(getattr(theirs, call)(*arguments))
            if got != wanted:
                stop(call, repr(pattern), arguments, flags, 'gives', got, 'and not', wanted)
    wanted = [found.span() for found in theirs.finditer(text)]
    if any(start == end for start, end in wanted):
        # The two go on differently after an empty match.
        return
    got = [found.span() for found in mine.finditer(text)]
    if got != wanted:
        stop('finditer', repr(pattern), repr(text), flags, 'gives', got, 'and not', wanted)
    for call, arguments in [('findall', ()), ('split', ()), ('split', (1,)), ('split', (-1,))]:
        if getattr(mine, call)(text, *arguments) != getattr(theirs, call)(text, *arguments):
            stop(call, repr(pattern), repr(text), flags)
    is_text = isinstance(text, str)
    template = SOURCE.choice(TEMPLATES if theirs.groups else TEMPLATES[:4])
    for repl in [template if is_text else template.encode(), text[:1], lambda found: found.group().upper()]:
        for count in [0, 1, -1]:
            if mine.subn(repl, text, count) != theirs.subn(repl, text, count):
                stop('subn', repr(pattern), repr(text), flags, repl, count)


def random_questions(count):
    for number in range(count):
        pattern = piece(3)
        text = ''.join(SOURCE.choice(LETTERS) for _ in range(SOURCE.randrange(12)))
        flags = SOURCE.choice([0, 0, re.I, re.M, re.S])
        if number % 4 == 0 and pattern.isascii():
            ask(pattern.encode(), text.encode('latin-1'), flags)
        else:
            ask(pattern, text, flags)


def want(given, wanted):
    if given != wanted:
        stop('gives', given, 'and not', wanted)


def refuses(wanted, call, *arguments):
    """Stops unless the call ends with this error."""
    try:
        call(*arguments)
    except wanted:
        return
    stop(call, arguments, 'is not refused by', wanted)


def written_cases():
    want([found.span() for found in nfa.finditer('a*', 'baac')], [(0, 0), (1, 3), (4, 4)])
    want(nfa.search(b'[\xe9]', b'caf\xe9').span(), (3, 4))
    want(nfa.search('é(?P<rest>.)', 'caféx').groupdict(), {'rest': 'x'})
    want(nfa.compile('(?P<a>x)(?<b>y)').groupindex, {'a': 1, 'b': 2})
    want(nfa.sub(r'(?P<a>x)(y)?', r'\2\g<a>\1\\', 'xyx'), r'yxx\xx' + '\\')
    want(nfa.sub(b'(x)', rb'\1\xe9'.replace(rb'\xe9', b'\xe9'), b'x'), b'x\xe9')
    want(nfa.fullmatch('a # x', 'a', nfa.X).span(), (0, 1))
    want(nfa.fullmatch('a|ab', 'ab').span(), (0, 2))
    want(nfa.search(nfa.escape('a.b-c'), 'a.b-c').span(), (0, 5))
    want(nfa.match('b', 'ab', ), None)
    want(nfa.search('(a)|(b)', 'b').lastindex, 2)
    want(nfa.search('a', 'a\ud800a').span(), (0, 1))
    named = nfa.search('(?P<a>x)(?P<b>y)?(z)', '-xz')
    want((named.lastgroup, named.lastindex, named.regs), (None, 3, ((1, 3), (1, 2), (-1, -1), (2, 3))))
    want(nfa.match('(?P<a>x)', 'x').lastgroup, 'a')
    want(nfa.compile(b'(?P<a>x)').groupindex, {'a': 1})
    for text in ['a.b*', 'é (x)', b'a.b\xe9', '']:
        want(nfa.fullmatch(nfa.escape(text), text).group(), text)
    want(doctest.testmod(nfa).failed, 0)
    for pattern in ['(', 'a{2}{', r'(a)\1', '(?=a)']:
        try:
            nfa.compile(pattern)
        except nfa.error as refused:
            want(refused.pattern, pattern)
            want(refused.pos is None, False)
        else:
            stop(pattern, 'is not refused')
    refuses(ValueError, nfa.compile, b'a', re.L)
    for number, (pattern, flags) in enumerate([('a\n(é', 0), (b'a\n(\xe9', 0), ('é\n[z-a]', 0)]):
        try:
            nfa.compile(pattern, flags)
        except nfa.PatternError as refused:
            want((refused.pos, refused.lineno, refused.colno), [(2, 2, 1), (2, 2, 1), (3, 2, 2)][number])


def details():
    """What has the same value with `re`, unless this Python's `re` does not have it."""
    for text in DETAILS:
        wanted = said(text, re)
        if wanted not in ['raises AttributeError', said(text, nfa)]:
            stop(text, 'is', said(text, nfa), 'and not', wanted)


def threads_meet_in_no_handle():
    """Threads that search by one pattern have a handle each meanwhile, and all are freed with the pattern."""
    made, freed, busy, met = [], [], set(), []

    class Watched(nfa._Compiled):
        def __init__(self, *given):
            super().__init__(*given)
            made.append(id(self))

        def __del__(self):
            super().__del__()
            freed.append(id(self))

        def search(self, *given):
            met.append(id(self) in busy)
            busy.add(id(self))
            # Others run meanwhile.
            time.sleep(0.001)
            found = super().search(*given)
            busy.discard(id(self))
            return found

    compiled, nfa._Compiled = nfa._Compiled, Watched
    word = nfa.Pattern(r'\w+')
    found = word.finditer('ab c')
    threads = [threading.Thread(target=lambda: word.findall('ab c d')) for _ in range(4)]
    threads.append(threading.Thread(target=lambda: want(len(list(found)), 2)))
    for thread in threads:
        thread.start()
    for thread in threads:
        thread.join()
    del word, found, threads[:], thread
    nfa._Compiled = compiled
    gc.collect()
    want((any(met), 2 <= len(made) <= 6, sorted(freed)), (False, True, sorted(made)))


if __name__ == '__main__':
    asked = int(sys.argv[1]) if sys.argv[1:] else 10000
    written_cases()
    details()
    threads_meet_in_no_handle()
    random_questions(asked)
    print(f'python: passed: {asked} questions')
