"""Regular expressions by a proved engine, in the words of `re`, over libnfa.so. docs/BINDINGS.md is the manual.

    >>> import nfa
    >>> nfa.search(r'(?P<year>\\d{4})-(\\d\\d)', 'on 2024-02')['year']
    '2024'
    >>> nfa.sub('[0-9]+', r'<\\g<0>>', 'a1 b22')
    'a<1> b<22>'
    >>> [found.span() for found in nfa.finditer(b'b+', b'ab abb')]
    [(1, 2), (4, 6)]

Patterns have the syntax of Rust's `regex`: no look-around and no back-references; `\\z` is the end; `$` does not match
before a last line feed. An empty match is not one if the last match ends there. A pattern of str matches characters,
and one of bytes matches bytes. Threads may share a pattern. The flags are those of `re`.
"""
import ctypes as c
import os
import sys
from itertools import accumulate
from operator import index
from re import A, ASCII, DOTALL, I, IGNORECASE, M, MULTILINE, S, U, UNICODE, VERBOSE, X, RegexFlag
from re import match as re_match
from types import GenericAlias, MappingProxyType

NOFLAG = RegexFlag(0)

__all__ = ['A', 'ASCII', 'DOTALL', 'I', 'IGNORECASE', 'M', 'MULTILINE', 'Match', 'NOFLAG', 'Pattern', 'PatternError',
           'RegexFlag', 'S', 'U', 'UNICODE', 'VERBOSE', 'X', 'compile', 'error', 'escape', 'findall', 'finditer',
           'fullmatch', 'match', 'purge', 'search', 'split', 'sub', 'subn']

# The library's flags.
_ASCII, _BYTES, _ANCHORED = 64, 128, 256
_FLAGS = {I: 1, M: 2, S: 4, X: 16, A: _ASCII, U: 0}

# Those that a pattern may begin with.
_LETTERS = {'i': I, 'm': M, 's': S, 'x': X}

# What a letter after a backslash is in a template.
_ESCAPES = {'\\': '\\', 'a': '\a', 'b': '\b', 'f': '\f', 'n': '\n', 'r': '\r', 't': '\t', 'v': '\v'}

_UNSET = c.c_size_t(-1).value
_FOUND, _OK, _MEMORY = 1, 0, -3


class _Slot(c.Structure):
    _fields_ = [('at', c.c_void_p)]


class _Handle(c.Structure):
    _fields_ = [('ready', c.c_bool), ('slot', _Slot)]


class _Options(c.Structure):
    _fields_ = [('flags', c.c_uint32), ('size_limit', c.c_size_t), ('dfa_capacity', c.c_size_t),
                ('backtrack_capacity', c.c_size_t)]


class _Place(c.Structure):
    _fields_ = [('pattern', c.c_size_t), ('start', c.c_size_t), ('end', c.c_size_t)]


def _library():
    here = os.path.dirname(os.path.abspath(__file__))
    library = c.CDLL(os.environ.get('NFA_LIBRARY') or next(
        (path for path in [os.path.join(here, 'libnfa.so')] if os.path.exists(path)), 'libnfa.so.0'))
    handle, text, size = c.POINTER(_Handle), c.c_char_p, c.c_size_t
    for name, result, *arguments in [
            ('nfa_regex_new_with', c.c_int32, handle, text, size, c.POINTER(_Options)),
            ('nfa_regex_why', size, text, size, c.POINTER(_Options), text, size),
            ('nfa_regex_place', c.c_int32, text, size, c.POINTER(_Options), c.POINTER(_Place)),
            ('nfa_regex_free', None, handle),
            ('nfa_regex_captures', c.c_int32, handle, text, size, size, size, c.POINTER(size), size),
            ('nfa_regex_slot_count', size, handle),
            ('nfa_regex_group_names', c.c_int32, text, size, c.POINTER(_Options), text, size, c.POINTER(size)),
            ('nfa_regex_escape', c.c_int32, text, size, text, size, c.POINTER(size))]:
        function = getattr(library, name)
        function.restype, function.argtypes = result, arguments
    return library


_lib = _library()


class error(Exception):
    """The text is not a pattern, or the pattern exceeds the size limit. `pos` is the place in the pattern, if one is
    known; `lineno` and `colno` are its line and column, counted from 1."""

    def __init__(self, msg, pattern=None, pos=None):
        super().__init__(f'{msg}: {pattern!r}')
        self.msg, self.pattern, self.pos, self.lineno, self.colno = msg, pattern, pos, None, None
        if pattern is not None and pos is not None:
            feed = '\n' if isinstance(pattern, str) else b'\n'
            self.lineno = pattern.count(feed, 0, pos) + 1
            self.colno = pos - pattern.rfind(feed, 0, pos)


PatternError = error


def _refusal(pattern, text, flags):
    """The error of a pattern that the library refuses as this text."""
    options = c.byref(_Options(flags))
    room = c.create_string_buffer(1024)
    size = _lib.nfa_regex_why(text, len(text), options, room, len(room))
    place, pos = _Place(), None
    if _lib.nfa_regex_place(text, len(text), options, c.byref(place)) == _FOUND:
        before = text[:place.start].decode(errors='ignore')
        pos = len(before)
        if not isinstance(pattern, str):
            # Some of its bytes are four in the text.
            ends = accumulate(1 if byte < 0x80 else 4 for byte in pattern)
            pos = sum(end <= len(before) for end in ends)
    return error(room.raw[:size].decode(errors='replace'), pattern, pos)


def _written(write, *given):
    """The text that this function of the library writes: the first call asks for its length."""
    size, room = c.c_size_t(), b''
    for _ in range(2):
        room = c.create_string_buffer(max(1, size.value))
        code = write(*given, room, size.value, c.byref(size))
        if code == _MEMORY:
            raise MemoryError
        if code != _OK:
            raise ValueError
    return room.raw[:size.value].decode()


def _group_names(text, flags):
    """The names of the groups with their numbers."""
    lines = _written(_lib.nfa_regex_group_names, text, len(text), c.byref(_Options(flags))).split('\n')
    return {name: group for group, name in enumerate(lines) if name}


def _flags_of(flags, is_text):
    """The library's flags for those of `re`."""
    if flags & ~sum(_FLAGS):
        raise ValueError(f'flags are not supported: {flags!r}')
    if flags & U and not is_text:
        raise ValueError('cannot use UNICODE flag with a bytes pattern')
    if flags & U and flags & A:
        raise ValueError('ASCII and UNICODE flags are incompatible')
    return sum(own for flag, own in _FLAGS.items() if flags & flag)


class _Compiled:
    """A full handle of the library, with room for the slots of its groups. It takes one call at a time."""

    def __init__(self, text, flags):
        self.handle = _Handle()
        code = _lib.nfa_regex_new_with(c.byref(self.handle), text, len(text), c.byref(_Options(flags)))
        if code == _MEMORY:
            raise MemoryError
        if code:
            raise ValueError
        self.count = _lib.nfa_regex_slot_count(c.byref(self.handle))
        self.slots = (c.c_size_t * self.count)()

    def __del__(self, free=_lib.nfa_regex_free):
        free(c.byref(self.handle))

    def search(self, hay, start, end):
        """The offsets of the groups of the match, or none."""
        code = _lib.nfa_regex_captures(c.byref(self.handle), hay, end, start, end, self.slots, self.count)
        return list(self.slots) if code == _FOUND else None


class _Text:
    """A haystack as bytes, with positions in it as its user counts them."""

    def __init__(self, string):
        self.string = self.content = string
        if isinstance(string, str):
            self.raw = string.encode('utf-8', 'surrogatepass')
            self.plain = len(self.raw) == len(string)
        else:
            self.raw = self.content = bytes(memoryview(string))
            self.plain = True
        # A position that was asked for, with its offset: the next one is often further on.
        self.known = 0, 0

    def offset(self, position):
        """The byte offset of a position."""
        return position if self.plain else len(self.content[:position].encode('utf-8', 'surrogatepass'))

    def range(self, pos, endpos):
        """The positions that are searched: those that are none are moved to an end."""
        size = len(self.content)
        return min(max(index(pos), 0), size), min(max(index(endpos), 0), size)

    def position(self, offset):
        """The position of a byte offset; -1 for none."""
        if self.plain or offset == _UNSET:
            return -1 if offset == _UNSET else offset
        at, start = self.known if self.known[1] <= offset else (0, 0)
        at += len(self.raw[start:offset].decode('utf-8', 'surrogatepass'))
        self.known = at, offset
        return at


class Match:
    """A match. Positions count characters of a str, and bytes of bytes."""

    __class_getitem__ = classmethod(GenericAlias)
    __iter__ = None

    def __init__(self, pattern, text, slots, pos, endpos):
        self.re, self.string, self.pos, self.endpos = pattern, text.string, pos, endpos
        self._content, self._ends = text.content, [text.position(slot) for slot in slots]

    def _number(self, group):
        try:
            number = self.re.groupindex[group] if isinstance(group, str) else index(group)
        except (KeyError, TypeError):
            number = -1
        if not 0 <= number <= self.re.groups:
            raise IndexError('no such group')
        return number

    def span(self, group=0):
        at = 2 * self._number(group)
        return self._ends[at], self._ends[at + 1]

    def start(self, group=0):
        return self.span(group)[0]

    def end(self, group=0):
        return self.span(group)[1]

    def _one(self, group, default=None):
        start, end = self.span(group)
        return default if start < 0 else self._content[start:end]

    def group(self, *groups):
        if len(groups) > 1:
            return tuple(self._one(group) for group in groups)
        return self._one(groups[0] if groups else 0)

    __getitem__ = _one

    def groups(self, default=None):
        return tuple(self._one(group, default) for group in range(1, self.re.groups + 1))

    def groupdict(self, default=None):
        return {name: self._one(group, default) for name, group in self.re.groupindex.items()}

    @property
    def regs(self):
        """The spans of all groups."""
        return tuple(self.span(group) for group in range(self.re.groups + 1))

    @property
    def lastgroup(self):
        """The name of that group, if it has one."""
        return next((name for name, group in self.re.groupindex.items() if group == self.lastindex), None)

    @property
    def lastindex(self):
        """The group that ends last, and of several the one that begins first."""
        ends = [(-self.end(group), self.start(group), group) for group in range(1, self.re.groups + 1)
                if self.start(group) >= 0]
        return min(ends)[2] if ends else None

    def expand(self, template):
        """The template: \\1, \\g<1> and \\g<name> stand for groups, and escapes as \\n and \\012 for a character."""
        return self.re._template(template)(self)

    def __copy__(self):
        return self

    def __deepcopy__(self, memo):
        return self

    def __reduce__(self):
        raise TypeError("cannot pickle 'nfa.Match' object")

    def __repr__(self):
        return f'<nfa.Match object; span={self.span()}, match={self.group()!r}>'


class Pattern:
    """A compiled pattern."""

    __class_getitem__ = classmethod(GenericAlias)

    def __init__(self, pattern, flags=0):
        is_text = isinstance(pattern, str)
        if not is_text and not isinstance(pattern, bytes):
            raise TypeError('first argument must be string or compiled pattern')
        self.pattern, self._flags = pattern, _flags_of(flags, is_text)
        if is_text:
            self._text = pattern
        else:
            # In such a text a byte above 0x7F is its escape.
            self._text = ''.join(chr(byte) if byte < 0x80 else f'\\x{byte:02X}' for byte in pattern)
            self._flags |= _ASCII | _BYTES
        # As `re` has them, with those that the pattern begins with.
        for letter in re_match(r'(?:\(\?[imsx]+\))*', self._text)[0]:
            flags |= _LETTERS.get(letter, 0)
        self.flags = int(flags | (U if is_text and not flags & A else 0))
        # Handles that no call uses, on which no two threads can meet: `pop` and `append` are one step each.
        self._free = {'search': [], 'match': [], 'fullmatch': []}
        try:
            first = self._compile('search')
        except ValueError:
            raise _refusal(pattern, self._text.encode(), self._flags) from None
        self._free['search'].append(first)
        self.groups = first.count // 2 - 1
        self.groupindex = MappingProxyType(_group_names(self._text.encode(), self._flags))

    def _search(self, how, text, start, end):
        """The offsets of the groups of the match between these offsets, or none. `how` is the name of a method."""
        try:
            compiled = self._free[how].pop()
        except IndexError:
            compiled = self._compile(how)
        slots = compiled.search(text.raw, start, end)
        self._free[how].append(compiled)
        return slots

    def _compile(self, how):
        if how == 'search':
            return _Compiled(self._text.encode(), self._flags)
        if how == 'match':
            return _Compiled(self._text.encode(), self._flags | _ANCHORED)
        # The pattern may end in a comment.
        for end in [r')\z', '\n)\\z'] if '#' in self._text or self.flags & X else [r')\z']:
            try:
                made = _Compiled(f'(?:{self._text}{end}'.encode(), self._flags | _ANCHORED)
            except ValueError:
                continue
            if made.count == 2 * self.groups + 2:
                return made
        raise error('no pattern for a full match', self.pattern)

    def _checked(self, string):
        is_text = isinstance(self.pattern, str)
        if isinstance(string, str):
            if not is_text:
                raise TypeError('cannot use a bytes pattern on a string-like object')
            return _Text(string)
        try:
            text = _Text(string)
        except TypeError:
            said = f'expected string or bytes-like object, got {type(string).__name__!r}'
            raise TypeError(said) from None
        if is_text:
            raise TypeError('cannot use a string pattern on a bytes-like object')
        return text

    def _one(self, how, string, pos, endpos):
        text = self._checked(string)
        pos, endpos = text.range(pos, endpos)
        if pos > endpos:
            return None
        slots = self._search(how, text, text.offset(pos), text.offset(endpos))
        return slots and Match(self, text, slots, pos, endpos)

    def search(self, string, pos=0, endpos=sys.maxsize):
        return self._one('search', string, pos, endpos)

    def match(self, string, pos=0, endpos=sys.maxsize):
        return self._one('match', string, pos, endpos)

    def fullmatch(self, string, pos=0, endpos=sys.maxsize):
        return self._one('fullmatch', string, pos, endpos)

    def finditer(self, string, pos=0, endpos=sys.maxsize):
        text = self._checked(string)
        return self._matches(text, *text.range(pos, endpos))

    def _matches(self, text, pos, endpos):
        at, end, last = text.offset(pos), text.offset(endpos), None
        while at <= end:
            slots = self._search('search', text, at, end)
            if slots and slots[0] == slots[1] == last:
                slots = self._search('search', text, at + 1, end) if at < end else None
            if not slots:
                return
            last = slots[1]
            # From the end of an empty match a search would find it once more.
            at = last + 1 if slots[0] == last else last
            yield Match(self, text, slots, pos, endpos)

    def findall(self, string, pos=0, endpos=sys.maxsize):
        empty = self.pattern[:0]
        found = self.finditer(string, pos, endpos)
        if self.groups == 0:
            return [each.group() for each in found]
        return [each.groups(empty)[0] if self.groups == 1 else each.groups(empty) for each in found]

    def split(self, string, maxsplit=0):
        pieces, at = [], 0
        text = self._checked(string)
        if maxsplit < 0:
            return [text.content]
        for count, found in enumerate(self._matches(text, *text.range(0, sys.maxsize)), 1):
            pieces += [text.content[at:found.start()], *found.groups()]
            at = found.end()
            if count == maxsplit:
                break
        return [*pieces, text.content[at:]]

    def subn(self, repl, string, count=0):
        make = repl if callable(repl) else self._template(repl)
        pieces, at, made = [], 0, 0
        text = self._checked(string)
        empty = self.pattern[:0]
        if count < 0:
            return text.content, 0
        for found in self._matches(text, *text.range(0, sys.maxsize)):
            with_it = make(found)
            pieces += [text.content[at:found.start()], empty if with_it is None else with_it]
            at, made = found.end(), made + 1
            if made == count:
                break
        return empty.join([*pieces, text.content[at:]]), made

    def sub(self, repl, string, count=0):
        return self.subn(repl, string, count)[0]

    def _template(self, template):
        """A function from a match to the template with its groups."""
        is_text = isinstance(template, str)
        text, parts, at = template if is_text else bytes(memoryview(template)).decode('latin-1'), [], 0
        while (next_at := text.find('\\', at)) >= 0:
            part, size = self._escape(text[next_at + 1:], template)
            parts += [text[at:next_at], part]
            at = next_at + 1 + size
        parts.append(text[at:])
        if not is_text:
            parts = [part.encode('latin-1') if isinstance(part, str) else part for part in parts]
        empty, parts = self.pattern[:0], [part for part in parts if isinstance(part, int) or part]

        def fill(found):
            return empty.join(found[part] or empty if isinstance(part, int) else part for part in parts)
        return fill

    def _escape(self, rest, template):
        """What stands for this text after a backslash, a text or the number of a group, and how much of it."""
        if named := re_match(r'g<([^>]*)>', rest):
            return self._group(named[1], template), named.end()
        if octal := re_match('0[0-7]{0,2}|[0-3][0-7]{2}', rest):
            return chr(int(octal[0], 8)), octal.end()
        if number := re_match('[0-9]{1,2}', rest):
            return self._group(number[0], template), number.end()
        if rest[:1] in _ESCAPES:
            return _ESCAPES[rest[0]], 1
        if not rest or rest[0].isascii() and rest[0].isalpha():
            raise error(f'bad escape \\{rest[:1]}', template)
        return '\\' + rest[0], 1

    def _group(self, name, template):
        """The number of the group that a template names so."""
        if not (name.isascii() and name.isdigit()):
            if not name.isidentifier():
                raise error(f'bad character in group name {name!r}', template)
            if (number := self.groupindex.get(name)) is None:
                raise IndexError(f'unknown group name {name!r}')
        elif (number := int(name)) > self.groups:
            raise error(f'invalid group reference {number}', template)
        return number

    def _key(self):
        return type(self.pattern), self.pattern, self.flags

    def __eq__(self, other):
        return isinstance(other, Pattern) and self._key() == other._key()

    def __hash__(self):
        return hash(self._key())

    def __reduce__(self):
        return compile, (self.pattern, self.flags)

    def __copy__(self):
        return self

    def __deepcopy__(self, memo):
        return self

    def __repr__(self):
        shown = RegexFlag(self.flags & ~U if isinstance(self.pattern, str) else self.flags)
        return f'nfa.compile({self.pattern!r:.200}{f", {shown!r}" if shown else ""})'


def compile(pattern, flags=0):
    """The pattern, compiled. The last ones are kept."""
    if not isinstance(pattern, Pattern):
        return _kept(pattern, flags)
    if flags:
        raise ValueError('cannot process flags argument with a compiled pattern')
    return pattern


_patterns = {}


def _kept(pattern, flags):
    key = type(pattern), pattern, flags
    if key not in _patterns:
        if len(_patterns) >= 256:
            _patterns.clear()
        _patterns[key] = Pattern(pattern, flags)
    return _patterns[key]


def purge():
    """Forgets the patterns that are kept."""
    _patterns.clear()


def search(pattern, string, flags=0):
    return compile(pattern, flags).search(string)


def match(pattern, string, flags=0):
    return compile(pattern, flags).match(string)


def fullmatch(pattern, string, flags=0):
    return compile(pattern, flags).fullmatch(string)


def findall(pattern, string, flags=0):
    return compile(pattern, flags).findall(string)


def finditer(pattern, string, flags=0):
    return compile(pattern, flags).finditer(string)


def split(pattern, string, maxsplit=0, flags=0):
    return compile(pattern, flags).split(string, maxsplit)


def sub(pattern, repl, string, count=0, flags=0):
    return compile(pattern, flags).sub(repl, string, count)


def subn(pattern, repl, string, count=0, flags=0):
    return compile(pattern, flags).subn(repl, string, count)


def escape(pattern):
    """A pattern that matches this text."""
    is_text = isinstance(pattern, str)
    text = (pattern if is_text else bytes(memoryview(pattern)).decode('latin-1')).encode()
    escaped = _written(_lib.nfa_regex_escape, text, len(text))
    return escaped if is_text else escaped.encode('latin-1')
