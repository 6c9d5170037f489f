"""Expressions that have the same value, or the same kind of error, if `m` is `re` and if it is `nfa`: what users of
`re` rely on beside the answers of searches. `compare.py` evaluates them."""
import copy
import pickle
import re

DETAILS = r'''
m.compile('').search('abc', 10)
m.compile('').search('abc', 10).pos
m.compile('').search('abc', 2, 1)
m.compile('').match('abc', 3, 99).endpos
m.compile('a').search('aa', -5).pos
m.compile('').search('abc', 1, -1)
[found.span() for found in m.compile('b').finditer('abcb', 1, 3)]
m.compile('b').fullmatch('abc', 1, 2)
m.compile('^b').match('ab', 1)
m.compile('b$').search('abc', 0, 2)
m.compile('a').search('ba', 1.0)
m.compile('a').search('ba', pos='1')
m.compile('a').search('a', 0, None)
m.compile('a').search(string='ba', pos=1, endpos=2)
m.compile('a').sub(repl='x', string='aa', count=1)
m.compile('a').split(string='bab', maxsplit=1)
m.sub(pattern='A', repl='x', string='aa', count=0, flags=m.I)
m.search(b'a', 5)
m.search('a', 5)
m.search('a', None)
m.search('a', b'a')
m.search(b'a', 'a')
m.finditer('a', 5)
m.findall('a', 5)
m.split('a', 5)
m.sub('a', 'b', 5)
m.search(b'a', bytearray(b'ba')).group()
m.search(b'a', memoryview(b'ba')).group()
m.search(b'a', bytearray(b'ba')).string
m.sub(b'a', b'x', bytearray(b'ba'))
m.sub(b'z', b'x', bytearray(b'ba'))
m.split(b'a', bytearray(b'bab'))
m.findall(b'(a)(z)?', bytearray(b'ba'))
m.compile(5)
m.compile(None)
m.compile(bytearray(b'a'))
m.compile('a', m.A | m.U)
m.compile(b'a', m.U)
m.compile('a', re.L)
m.compile('a').flags
m.compile(b'a').flags
m.compile('a', m.A).flags
m.compile('(?i)a').flags
m.compile('(?im)(?s)a', m.X).flags
m.compile('a')
m.compile('a', m.I | m.M)
m.compile(b'a', m.S)
m.compile('(?i)a')
m.compile(m.compile('a')) is m.compile('a')
m.compile(m.compile('a'), m.I)
m.search(m.compile('a'), 'a', m.I)
m.compile('a') == m.compile('a')
m.compile('a') == m.compile('a', m.I)
m.compile('a') == m.compile(b'a')
m.compile('a') < m.compile('b')
hash(m.compile('a')) == hash(m.compile('a'))
isinstance(m.compile('a'), m.Pattern)
m.Pattern[str], m.Match[bytes]
m.NOFLAG, m.RegexFlag.I
copy.copy(m.compile('a')) is m.compile('a')
copy.deepcopy(m.compile('a')) is m.compile('a')
pickle.loads(pickle.dumps(m.compile('a', m.I)))
pickle.dumps(m.search('a', 'a'))
copy.copy(m.search('a', 'a'))
copy.deepcopy(m.search('a', 'a'))
m.search('(?P<n>a)(b)?', 'a').group('n', 1, 2)
m.search('(?P<n>a)', 'a').group('x')
m.search('(?P<n>a)', 'a').group(b'n')
m.search(b'(?P<n>a)', b'a').group(b'n')
m.search(b'(?P<n>a)', b'a').group('n')
m.search('a', 'a').group(1)
m.search('a', 'a').group(-1)
m.search('(a)', 'a').group(1.0)
m.search('(a)', 'a').group(None)
m.search('(a)', 'a').group(True)
m.search('(a)', 'a')['n']
m.search('(a)', 'a')[1]
m.search('(a)', 'a').span(2)
m.search('(a)', 'a').start('n')
m.search('(?P<n>a)', 'ba').span('n')
m.search('(?P<n>a)', 'ba').start('n'), m.search('(?P<n>a)', 'ba').end('n')
m.search('(a)|(b)', 'b').span(1)
m.search('(a)|(b)', 'b').groups(0)
m.search('(a)|(?P<q>b)', 'a').groupdict('-')
m.search('(?P<a>.)(?P<b>.)?', 'x').groupdict()
m.search('(?P<a>.)(?P<b>.)?', 'x').re.groupindex
m.search('((a)(b))', 'ab').lastindex
m.search('(a)(b)', 'ab').regs
m.search('a', 'a').lastindex
bool(m.search('a', 'a')), m.search('a', 'ba')
list(m.search('(a)', 'a'))
len(m.search('a', 'a'))
m.sub('a', 1, 'a')
m.sub('a', None, 'a')
m.sub('a', b'x', 'a')
m.sub(b'a', 'x', b'a')
m.sub('a', b'x', 'b')
m.sub(b'a', bytearray(b'x'), b'a')
m.sub('a', lambda found: 1, 'a')
m.sub('a', lambda found: None, 'bab')
m.sub('a', lambda found: b'x', 'a')
m.sub('a', lambda found: r'\1', 'a')
m.sub('a', 'x', 'aaa', count=2), m.sub('a', 'x', 'aaa', count=-1)
m.subn('a', 'b', 'aa')
m.split('a', '1a2a3', maxsplit=1), m.split('(a)', '1a2'), m.split('a', '1a2', maxsplit=-1)
m.findall('(a)(b)?', 'aab'), m.findall(b'()', b'a'), m.findall('(a)|b', 'ab')
m.sub('(a)', r'\g<1>0', 'a')
m.sub('(a)', r'\10', 'a')
m.sub('(a)', r'\400', 'a')
m.sub('(a)', r'\g<01>', 'a')
m.sub('(a)', r'\g<-1>', 'a')
m.sub('(a)', r'\g<a b>', 'a')
m.sub('(?P<n>a)', r'\g<n>!', 'a')
m.sub('a', r'\g<n>', 'b')
m.sub('a', r'\g<1', 'a')
m.sub('a', r'\g<>', 'a')
m.sub('a', '\\', 'a')
m.sub('a', r'\q', 'b')
m.sub('a', r'\.', 'a')
m.sub('(a)|b', r'[\1]', 'ab')
m.search('(a)', 'a').expand(r'\1!')
m.search('(a)', 'a').expand(b'\\1')
m.search('(a)', 'a').expand(5)
m.escape(5)
m.escape(b'a.\xe9'), m.escape(bytearray(b'.'))
m.compile('a\0b').search('xa\0b').span()
'''.strip().split('\n')


def said(text, module):
    """What the expression comes to: a value, without the name of the module, or the name of an error."""
    try:
        value = repr(eval(text, {'m': module, 're': re, 'copy': copy, 'pickle': pickle}))
    except Exception as refused:
        # Its name is one of both, by the version of Python.
        return 'raises error' if isinstance(refused, module.error) else f'raises {type(refused).__name__}'
    return value.replace(f'{module.__name__}.', 'm.').replace('re.', 'm.')
