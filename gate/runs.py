"""Runs of programs with a library preloaded that fails, refuses or counts what they ask for: each by a start of its own, or many by one
start, which takes a part of that time (fork-runs.h)."""

import dataclasses
import itertools
import mmap
import os
import select
import signal
import socket
import struct
import subprocess
import threading
import time

# What a pipe takes before anybody reads it, and what the library takes as a message.
MOST_GIVEN, MOST_MESSAGE = 65_536, 65_535
STATUS = struct.Struct("=i")


@dataclasses.dataclass(frozen=True)
class Ran:
    """How a run ended, and what the library recorded of it."""

    status: int
    out: bytes
    err: bytes
    record: bytes


class Preloaded:
    """A library, and the variable that names the file of so many bytes in which it records. With `forks` the runs of a program share a
    start, in each thread and process that has it run; what a process can set for itself is then as it was at the first run."""

    numbers = itertools.count()

    def __init__(self, file, variable, size, forks=False):
        self.file, self.variable, self.size, self.forks, self.starts = file, variable, size, forks, {}

    def recorded(self):
        """A new file to record in, which goes with the library's folder, and the environment that has it and the library used."""
        path = f"{self.file}.{os.getpid()}-{next(self.numbers)}"
        with open(path, "x+b") as file:
            file.truncate(self.size)
            return path, mmap.mmap(file.fileno(), self.size), {"LD_PRELOAD": str(self.file), self.variable: path}

    def run(self, words, settings, seconds, given=None, output=None):
        """Runs a program to its end. What it says goes to a file where `output` is one. It raises as subprocess.run does."""
        if self.forks and len(given or b"") <= MOST_GIVEN:
            key = os.getpid(), threading.get_ident(), words[0]
            if key not in self.starts:
                self.starts[key] = Start(words[0], *self.recorded()[1:])
            try:
                return self.starts[key].run(words, settings, seconds, given, output)
            except BaseException:
                # What it says after a run that failed may be of that one.
                self.starts.pop(key).end()
                raise
        path, record, environment = self.recorded()
        how = {"stdin": subprocess.DEVNULL} if given is None else {"input": given}
        try:
            ran = subprocess.run(words, stdout=subprocess.PIPE if output is None else output, stderr=subprocess.PIPE, timeout=seconds,
                                 env=environment | settings, **how)
            return Ran(ran.returncode, ran.stdout or b"", ran.stderr, record[:])
        finally:
            record.close()
            os.unlink(path)


class Start:
    """A program that stands at its start and is forked for each run."""

    def __init__(self, program, record, environment):
        self.record, self.none, self.environment = record, bytes(len(record)), environment
        self.socket, other = socket.socketpair(socket.AF_UNIX, socket.SOCK_SEQPACKET)
        with other:
            self.process = subprocess.Popen([program], stdin=subprocess.DEVNULL, pass_fds=[other.fileno()], start_new_session=True,
                                            env=environment | {"FORK_RUNS": str(other.fileno())})

    def end(self):
        os.killpg(self.process.pid, signal.SIGKILL)
        self.process.wait()
        self.socket.close()

    def run(self, words, settings, seconds, given, output):
        self.record[:] = self.none
        variables = [f"{name}={value}" for name, value in (self.environment | settings).items()]
        message = b"".join(os.fsencode(text) + b"\0" for text in [*variables, "", *words])
        if len(message) > MOST_MESSAGE:
            raise ValueError(f"the words of a run are too long: {len(message)} bytes")
        (out, out_to), (err, err_to) = os.pipe(), os.pipe()
        files = [given_file(given), out_to if output is None else os.dup(output.fileno()), err_to]
        try:
            socket.send_fds(self.socket, [message], files)
            for file in {*files, out_to}:
                os.close(file)
            said = self.read_all((out, err), seconds, words)
            status, = STATUS.unpack(self.socket.recv(STATUS.size))
        finally:
            os.close(out)
            os.close(err)
        return Ran(os.waitstatus_to_exitcode(status), *said, self.record[:])

    def read_all(self, files, seconds, words):
        """What a run writes to pipes until it ends."""
        end, waits, said = time.monotonic() + seconds, select.poll(), {file: b"" for file in files}
        for file in files:
            waits.register(file, select.POLLIN)
        left = len(files)
        while left:
            ready = waits.poll(max(0, 1_000 * (end - time.monotonic())))
            if not ready:
                raise subprocess.TimeoutExpired(words, seconds)
            for file, _ in ready:
                data = os.read(file, MOST_GIVEN)
                said[file] += data
                if not data:
                    waits.unregister(file)
                    left -= 1
        return said.values()


def given_file(given):
    """A file that gives this and then ends."""
    if given is None:
        return os.open(os.devnull, os.O_RDONLY)
    file, to = os.pipe()
    os.write(to, given)
    os.close(to)
    return file
