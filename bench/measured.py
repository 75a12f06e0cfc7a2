"""What the benches share: schedules of commands, and what one run of `mtx play` takes."""
import importlib.machinery
import importlib.util
import json
import os
import pathlib
import subprocess
import sys
import tempfile
import time

TOP = pathlib.Path(__file__).resolve().parent.parent
PROGRAM = TOP / "crates" / "mtx" / "out" / "mtx"


def load_tool(name):
    """A script of tools/, as a module."""
    loader = importlib.machinery.SourceFileLoader(name.replace("-", "_"), str(TOP / "tools" / name))
    module = importlib.util.module_from_spec(importlib.util.spec_from_loader(loader.name, loader))
    loader.exec_module(module)
    return module


sys.dont_write_bytecode = True
HEX = load_tool("mtx-hex")


def client(command, connection=1, request=1):
    """The line of a schedule that sends the command, and settles what comes of it."""
    return f"client {connection} {HEX.message(HEX.command_of(json.dumps(command)), request).hex()}\n"


class Taken:
    """What a run took: seconds by the clock and of the processor, bytes of memory at the most; and the lines that it wrote."""

    def __init__(self, clock, processor, memory, lines):
        self.clock, self.processor, self.memory, self.lines = clock, processor, memory, lines

    def replies(self):
        return [line for line in self.lines if line.startswith("reply ")]


def played(call, lines):
    """Plays the lines once, by a program with its words. It ends where the program doesn't end with status 0, or a command is refused."""
    with tempfile.TemporaryFile("w+") as made, tempfile.TemporaryFile("w+") as out:
        made.writelines(lines)
        made.seek(0)
        start = time.monotonic()
        child = subprocess.Popen(call, stdin=made, stdout=out)
        _, status, used = os.wait4(child.pid, 0)
        child.returncode = os.waitstatus_to_exitcode(status)
        clock = time.monotonic() - start
        if child.returncode != 0:
            sys.exit(f"the program ended with status {child.returncode}")
        out.seek(0)
        taken = Taken(clock, used.ru_utime + used.ru_stime, used.ru_maxrss * 1024, out.read().splitlines())
    refused = [line for line in taken.replies() if b"errmsg".hex() in line]
    if refused:
        sys.exit(f"a command was refused: {HEX.readable(refused[0])}")
    return taken


def least(program, lines, runs, wanted):
    """The run that took the processor least; each has to give that many replies."""
    found = []
    for _ in range(runs):
        taken = played([program, "play"], lines)
        if len(taken.replies()) != wanted:
            sys.exit(f"{wanted} replies are wanted, {len(taken.replies())} came")
        taken.lines = []
        found.append(taken)
    return min(found, key=lambda it: it.processor)


def instructions(program, lines, wanted):
    """How many instructions the run takes, as valgrind counts them: these don't change with what else the machine does."""
    with tempfile.TemporaryDirectory() as room:
        schedule, counts = pathlib.Path(room, "schedule"), pathlib.Path(room, "counts")
        schedule.write_text("".join(lines))
        words = ["valgrind", "-q", "--tool=cachegrind", "--cache-sim=no", f"--cachegrind-out-file={counts}", program, "play"]
        with open(schedule) as given:
            ran = subprocess.run(words, stdin=given, stdout=subprocess.PIPE, stderr=subprocess.DEVNULL, text=True)
        replies = sum(line.startswith("reply ") for line in ran.stdout.splitlines())
        if ran.returncode != 0 or replies != wanted:
            sys.exit(f"the program ended with status {ran.returncode} and {replies} replies, where {wanted} are wanted")
        found = [line for line in counts.read_text().splitlines() if line.startswith("summary:")]
        return int(found[0].split()[1])


def program_of(words):
    """The program that the command line names, if it is one."""
    if not os.access(words.program, os.X_OK):
        sys.exit(f"there is no program at {words.program}: `make build` leaves one at crates/mtx/out/mtx")
    if words.runs < 1:
        sys.exit("--runs is 1 or more")
    return os.path.abspath(words.program)


def add_words(words):
    words.add_argument("--program", default=PROGRAM, metavar="FILE")
    words.add_argument("--runs", type=int, default=3, metavar="N")
