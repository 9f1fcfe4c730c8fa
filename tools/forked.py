"""Runs of a Python program as forks of the process that has them run: a start of Python and what the program imports take ten times as long
as most runs, and are shared so. A run has the modules that are imported here as they are, and what `atexit` has is left to the process."""

import ast
import contextlib
import importlib
import io
import os
import pathlib
import select
import signal
import socket
import struct
import subprocess
import sys
import threading
import traceback
import types

MOST_MESSAGE = 65_536


class Program:
    """A Python program in a file. The modules that it imports are imported here at once."""

    def __init__(self, path):
        self.path = str(path)
        tree = ast.parse(pathlib.Path(path).read_text(), self.path)
        self.code = compile(tree, self.path, "exec")
        for it in ast.walk(tree):
            if isinstance(it, (ast.Import, ast.ImportFrom)):
                for name in [it.module] if isinstance(it, ast.ImportFrom) else [name.name for name in it.names]:
                    importlib.import_module(name)

    def run(self, words, environment, folder=None):
        """Runs it to its end, with nothing to read. Gives what subprocess.run gives of texts."""
        sys.stdout.flush()
        sys.stderr.flush()
        words, environment = [self.path, *map(str, words)], dict(environment)
        files = [os.open(os.devnull, os.O_RDONLY), os.memfd_create("out"), os.memfd_create("err")]
        try:
            process = fork_of(self.code, words, environment, folder, files)
            status = os.waitstatus_to_exitcode(os.waitpid(process, 0)[1])
            out, err = (os.pread(file, os.fstat(file).st_size, 0).decode() for file in files[1:])
        finally:
            for file in files:
                os.close(file)
        return subprocess.CompletedProcess(words, status, out, err)


def fork_of(code, words, environment, folder, files):
    """A process that runs the program."""
    process = os.fork()
    if process == 0:
        status = 1
        try:
            status = ended(code, words, environment, folder, files)
        finally:
            os._exit(status)
    return process


def ended(code, words, environment, folder, files):
    """In the fork: runs the program, and gives its status. What the process had open otherwise is closed where a program is started."""
    try:
        become(words, environment, folder, files)
        status = status_of(code)
    except BaseException:
        traceback.print_exc()
        status = 1
    try:
        sys.stdout.flush()
        sys.stderr.flush()
    except OSError:
        return 120
    return status


def become(words, environment, folder, files):
    for number, file in enumerate(files):
        os.dup2(file, number)
    # As a start of Python has them where they are no terminal's.
    sys.stdin = open(0, encoding=sys.stdin.encoding, closefd=False)
    for name, number in (("stdout", 1), ("stderr", 2)):
        before = getattr(sys, name)
        raw = io.FileIO(number, "w", closefd=False)
        text = io.TextIOWrapper(io.BufferedWriter(raw), before.encoding, "strict" if number == 1 else "backslashreplace",
                                line_buffering=number == 2)
        setattr(sys, name, text)
    os.environ.clear()
    os.environ.update(environment)
    if folder is not None:
        os.chdir(folder)
    sys.argv = words


def status_of(code):
    """Runs the program as Python runs its main module, and waits for its threads."""
    main = types.ModuleType("__main__")
    main.__file__ = sys.argv[0]
    sys.modules["__main__"] = main
    sys.path[0] = os.path.dirname(os.path.realpath(sys.argv[0]))
    try:
        exec(code, main.__dict__)
        status = 0
    except SystemExit as ends:
        status = ends.code if isinstance(ends.code, int) else 0 if ends.code is None else 1
        if status and not isinstance(ends.code, int):
            print(ends.code, file=sys.stderr)
    threading._shutdown()
    return status


@contextlib.contextmanager
def standing(program, path):
    """Has a process at a socket of this path do what stand-ins of a program ask for (ceph/tests/stand-in.c), each in a fork of it."""
    with socket.socket(socket.AF_UNIX, socket.SOCK_SEQPACKET) as listening:
        listening.bind(str(path))
        listening.listen(64)
        above = os.getpid()
        process = os.fork()
        if process == 0:
            try:
                serve(program, listening, above)
            finally:
                os._exit(1)
    try:
        yield
    finally:
        os.kill(process, signal.SIGTERM)
        os.waitpid(process, 0)


def serve(program, listening, above):
    """Does so until the process above it ends."""
    runs, waits = {}, select.poll()
    waits.register(listening, select.POLLIN)
    while os.getppid() == above:
        for file, _ in waits.poll(1_000):
            if file == listening.fileno():
                asking, _ = listening.accept()
                message, files, _, _ = socket.recv_fds(asking, MOST_MESSAGE, 3)
                words = [os.fsdecode(word) for word in message.split(b"\0")[:-1]]
                process = fork_of(program.code, words, dict(os.environ), None, files)
                for it in files:
                    os.close(it)
                ending = os.pidfd_open(process)
                runs[ending] = process, asking
                waits.register(ending, select.POLLIN)
            else:
                process, asking = runs.pop(file)
                waits.unregister(file)
                os.close(file)
                with asking, contextlib.suppress(OSError):
                    asking.send(struct.pack("=i", os.waitpid(process, 0)[1]))
