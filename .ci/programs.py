"""The one way in which the scripts run programs, those that `rt ci` has built and that of `tests`: with arguments, an input,
and faults of a library that is loaded before a program's own (`faults.c`); and compare what they write."""
import contextlib
import functools
import os
import pathlib
import shutil
import subprocess
import sys
import tempfile
import threading
from typing import NamedTuple

here = pathlib.Path(__file__).resolve().parent
crates = here.parent / 'crates'
room = tempfile.TemporaryDirectory()
# Inputs that cannot be read: one that is closed, and a folder.
CLOSED, FOLDER = object(), os.open('/', os.O_RDONLY)
# Nothing else gets the file to which the libraries write.
TOLD = 9
os.dup2(2, TOLD)
starting = threading.Lock()


@functools.cache
def faults():
    """Builds the library, which is removed when the script ends."""
    guide = subprocess.run(['rt', 'doc'], capture_output=True, text=True, check=True).stdout.strip()
    clang = pathlib.Path(guide).parent / 'toolchain/bin/clang'
    compiler = str(clang) if clang.exists() else os.environ.get('CC', 'cc')
    made = f'{room.name}/faults.so'
    subprocess.run([compiler, '-O1', '-shared', '-fPIC', '-nostdlib', '-o', made, str(here / 'faults.c')], check=True)
    return made


def shown(terminal):
    """Returns all that was written to a terminal whose other end is closed, which may take several reads, and closes it."""
    parts = []
    with open(terminal, 'rb', buffering=0) as file, contextlib.suppress(OSError):
        while part := file.read(1000):
            parts.append(part)
    return b''.join(parts)


@functools.cache
def gnu_grep():
    """The path of GNU grep 3.8, with which `nfa_grep` is compared, or none if the system has another or no grep."""
    grep = shutil.which('grep')
    said = subprocess.run([grep, '--version'], capture_output=True).stdout if grep else b''
    return grep if b'(GNU grep) 3.8' in said.split(b'\n')[0] else None


NO_GREP = 'what is compared with GNU grep 3.8, which is not installed'


def built(program):
    return str(crates / program / 'out' / program)


def raw(text):
    """A text as bytes. Texts are str, or bytes if they are not UTF-8."""
    return text.encode() if isinstance(text, str) else text


class Ran(NamedTuple):
    """The status of a run, what it wrote, and what the library has told: a byte for each call that it let fail."""
    status: int
    printed: bytes
    errors: bytes
    told: bytes


class Runner:
    """Runs programs for the script of this name, counts the runs, and ends the script if one is not as it has to be."""

    def __init__(self, name):
        self.name, self.runs, self.skipped = name, 0, []

    def stop(self, *said):
        sys.exit(f'{self.name}: ' + ' '.join(map(str, said)))

    def skip(self, what):
        """Notes what is not checked on this machine."""
        if what not in self.skipped:
            self.skipped.append(what)

    def done(self, said):
        """Ends with a line that says what was checked, and a line for each thing that was not, which `.ci/run` repeats."""
        print(f'{self.name}: {said}')
        for what in self.skipped:
            print(f'{self.name}: skipped: {what}')

    def run(self, program, arguments, text=b'', out=subprocess.PIPE, path=None, limit=60, user=None, **settings):
        """Runs a program with this input, which is a text, a file, or one that cannot be read; and with the library, if
        there are settings for it. The environment has nothing else."""
        command = path or built(program)
        if not pathlib.Path(command).exists():
            self.stop(f'there is no {command}, which `rt ci` builds')
        environment = {name: str(value) for name, value in settings.items()}
        if settings:
            environment['LD_PRELOAD'] = faults()
        with tempfile.TemporaryFile() as told, tempfile.TemporaryFile() as held:
            if 'READS' in settings and isinstance(text, bytes):
                # A read of a pipe may take a part of what will come, and a read of a file does not.
                held.write(text)
                held.seek(0)
                text = held
            stdin = {'stdin': subprocess.PIPE if isinstance(text, bytes) else text}
            if text is CLOSED:
                stdin = {'stdin': subprocess.DEVNULL, 'preexec_fn': lambda: os.close(0)}
            with starting:
                self.runs += 1
                os.dup2(told.fileno(), TOLD)
                started = subprocess.Popen([command, *arguments], stdout=out, stderr=subprocess.PIPE,
                                           env=environment, pass_fds=[TOLD], user=user, **stdin)
            try:
                printed, errors = started.communicate(text if isinstance(text, bytes) else None, timeout=limit)
            except subprocess.TimeoutExpired:
                started.kill()
                self.stop(program, arguments, 'had not ended after', limit, 'seconds')
            told.seek(0)
            return Ran(started.returncode, printed, errors, told.read())

    def outputs(self, *given, **more):
        """Runs, and returns the status and both outputs."""
        return self.run(*given, **more)[:3]

    def expect(self, program, arguments, text, printed='', errors='', status=0, **more):
        """Compares one run, to the byte."""
        text = raw(text) if isinstance(text, str) else text
        got, wanted = self.run(program, arguments, text, **more), (status, raw(printed), raw(errors), b'')
        if got != wanted:
            self.stop(program, [word[:60] for word in arguments], repr(text)[:60], 'gave',
                      *(repr(it)[:300] for it in got[:3]), 'and not', *(repr(it)[:300] for it in wanted[:3]))

    def refusals(self, program, arguments, text, least=10):
        """Refuses each request for memory of a run in turn. Yields the number of the request; what came of the run, or
        none if that is the usual; and the usual. If no request is left to refuse, it has to come too."""
        usual = self.run(program, arguments, text)
        for number in range(1, 100_000):
            got = self.run(program, arguments, text, REFUSED=number)
            if not got.told:
                break
            yield number, None if got[:3] == usual[:3] else got, usual
        if number <= least or got != usual:
            self.stop(program, arguments, 'made', number - 1, 'requests for memory, and then gave', *got)
