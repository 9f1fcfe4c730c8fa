"""Runs tests over programs that may do harm, as root, in namespaces of its own: the disk can't be written, and /tmp and /dev are new."""

import json
import os
import pathlib
import signal
import subprocess
import sys
import time

# The devices that tests use, with their numbers.
DEVICES = {"null": (1, 3), "zero": (1, 5), "full": (1, 7), "random": (1, 8), "urandom": (1, 9), "tty": (5, 0)}
# What is made before the disk can't be written any more. What /tmp has is the memory's, of which so much is used at most.
MAKE = """set -e
mount -t proc proc /proc
mount -t tmpfs -o mode=1777,size=3g none /tmp
mkdir /tmp/dev
mount -t tmpfs -o mode=755 none /tmp/dev
cd /tmp/dev
mkdir pts shm
mount --bind /dev/pts pts
mount -t tmpfs -o mode=1777 none shm
ln -s /proc/self/fd fd
ln -s fd/0 stdin; ln -s fd/1 stdout; ln -s fd/2 stderr; ln -s pts/ptmx ptmx
for loop in /dev/loop*; do [ ! -e "$loop" ] || cp -a "$loop" .; done
"""
CLOSE = """set -e
cd /
mount --move /tmp/dev /dev
rmdir /tmp/dev
mount -o remount,bind,ro /
mkdir -m 755 /tmp/program
"""
# What a test has left goes: mounts, and what nobody has rights to.
CLEAR = """for place in $(mount | grep ' /tmp/' | cut -d ' ' -f 3 | tac); do umount -l "$place"; done
find /tmp -mindepth 1 -maxdepth 1 ! -name program -exec chmod -R u+rwx {} +
find /tmp -mindepth 1 -maxdepth 1 ! -name program -exec rm -rf {} +"""
PROGRAM, REACHED, MOST = pathlib.Path("/tmp/program/rebuild_store"), pathlib.Path("/dev/shm/reached"), 4_096
# Where the number of the mistake that is made is in the program, and the sign that what is reached is noted.
SWITCHES, NUMBER, NOTES = b"SWITCHED=0000;NOTE=0;", slice(9, 13), slice(19, 20)
SHOWN = 400


def make_devices():
    mask = os.umask(0)
    for name, numbers in DEVICES.items():
        os.mknod(f"/tmp/dev/{name}", 0o020666, os.makedev(*numbers))
    os.umask(mask)


def write_program(program, number):
    """Makes the program with a mistake; with none, one that notes what is reached."""
    at = program.index(SWITCHES)
    switches = bytearray(SWITCHES)
    switches[NUMBER], switches[NOTES] = b"%04d" % number, b"0" if number else b"1"
    PROGRAM.unlink(missing_ok=True)
    PROGRAM.write_bytes(program[:at] + switches + program[at + len(SWITCHES):])
    PROGRAM.chmod(0o755)


def ended(folder, test, seconds):
    """Runs a test; gives its status, 1 if it takes too long, and what it said last."""
    script, *names = test
    words = [sys.executable, folder / f"copy/gate/{script}.py", PROGRAM, *names]
    process = subprocess.Popen(words, cwd="/tmp", stdin=subprocess.DEVNULL, stdout=subprocess.PIPE, stderr=subprocess.STDOUT,
                               start_new_session=True)
    try:
        said, _ = process.communicate(timeout=seconds)
    except subprocess.TimeoutExpired:
        os.killpg(process.pid, signal.SIGKILL)
        said, _ = process.communicate()
    subprocess.run(CLEAR, shell=True, capture_output=True)
    return 1 if process.returncode else 0, said.decode(errors="replace")[-SHOWN:]


def answer(folder, program, job):
    """Runs the tests of a job over its mistake until one fails."""
    write_program(program, job["number"])
    REACHED.write_bytes(bytes(MOST))
    REACHED.chmod(0o666)
    found, start = {"number": job["number"], "status": 0, "said": "", "ran": []}, time.monotonic()
    for test, seconds in job["tests"]:
        found |= {"test": test, "ran": [*found["ran"], test]}
        found["status"], found["said"] = ended(folder, test, seconds)
        if found["status"]:
            break
    reached = REACHED.read_bytes() if job["number"] == 0 else b""
    return found | {"seconds": time.monotonic() - start, "reached": [number for number, is_reached in enumerate(reached) if is_reached]}


def answer_all(folder):
    """Makes the namespaces ready, and answers each job of standard input by a line."""
    program = (folder / "program").read_bytes()
    subprocess.run(MAKE, shell=True, check=True)
    make_devices()
    subprocess.run(CLOSE, shell=True, check=True)
    os.environ["PYTHONDONTWRITEBYTECODE"] = "1"
    for line in sys.stdin:
        print(json.dumps(answer(folder, program, json.loads(line))), flush=True)
