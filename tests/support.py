"""What the tests of the built program share: finding it, the flow that most of them run, running it, and counting what
passed."""

import argparse
import contextlib
import hashlib
import os
import pathlib
import random
import re
import shutil
import signal
import stat
import subprocess
import sys
import tempfile
import threading
import time

ROOT = pathlib.Path(__file__).resolve().parent.parent

# Statuses of the program. A text that is no flow and a store of another flow have the same.
DONE, USAGE, REFUSED, DAMAGED, DISK, INBOX, OUTBOX, SOURCE, SINK = 0, 2, 3, 4, 5, 6, 7, 8, 9
BLOCKED, LIMIT, MEMORY, ABSENT = 10, 11, 12, 13

# The text of the standard flow: get, a queue, put in place of what stands there.
THE_TEXT = (ROOT / "examples" / "first" / "flow.json").read_bytes()

# The longest that a single run may take, in seconds.
LONGEST = 600


def options(about):
    """The options that each script has. `--program` names a built program; else it is built where due."""
    parser = argparse.ArgumentParser(description=about)
    parser.add_argument("--program", help="the built program (default: built where that is due)")
    parser.add_argument("--folder", help="where temporary folders are made (default: the system's)")
    return parser


def parse_seeded(parser):
    """The words, and a seed that everything at random is drawn from: that of `--seed`, or a new one."""
    parser.add_argument("--seed", type=int, help="draw what is random as an earlier run did (default: anew)")
    given = parser.parse_args()
    seed = given.seed if given.seed is not None else random.randrange(2**32)
    random.seed(seed)
    return given, seed


def find_program(named):
    if named is None:
        named = subprocess.run([ROOT / "tools" / "build"], check=True, stdout=subprocess.PIPE,
                               text=True).stdout.strip()
    path = pathlib.Path(named).resolve()
    if not os.access(path, os.X_OK):
        sys.exit(f"no program at {path}")
    return str(path)


@contextlib.contextmanager
def new_folder(parent=None):
    """A new folder that is removed at the end, whatever happened in it."""
    path = pathlib.Path(tempfile.mkdtemp(prefix="flow-test-", dir=parent))
    try:
        yield path
    finally:
        shutil.rmtree(path)


def put_flow(folder, text=THE_TEXT):
    """Writes a flow for the program to run there."""
    (folder / "flow.json").write_bytes(text)


@contextlib.contextmanager
def work_folder(parent=None, text=THE_TEXT):
    """A new folder with a flow in it, the standard one where none is given."""
    with new_folder(parent) as folder:
        put_flow(folder, text)
        yield folder


def in_memory(parent):
    """Where folders are made for what no disk matters to: in memory, which is much faster, if none is named."""
    return "/dev/shm" if parent is None and os.access("/dev/shm", os.W_OK) else parent


class Run:
    """How a run ended: its status, its time by the clock and by the processor (in seconds), the peak of
    its memory (in bytes), and what it printed."""

    def __init__(self, status, seconds, busy, peak, said):
        self.status = status
        self.seconds = seconds
        self.busy = busy
        self.peak = peak
        self.said = said


def run(program, folder, words=("run",), limits=None):
    """Runs the program in a folder to its end, and for LONGEST seconds at most."""
    with tempfile.TemporaryFile() as said:
        start = time.monotonic()
        child = subprocess.Popen([program, *words], cwd=folder, stdin=subprocess.DEVNULL, stdout=said,
                                 stderr=subprocess.STDOUT, preexec_fn=limits)
        memory = Memory(child.pid)
        clock = threading.Timer(LONGEST, os.kill, (child.pid, signal.SIGKILL))
        clock.start()
        _, ended, used = os.wait4(child.pid, 0)
        seconds = time.monotonic() - start
        clock.cancel()
        memory.stop()
        child.returncode = os.waitstatus_to_exitcode(ended)
        said.seek(0)
        return Run(child.returncode, seconds, used.ru_utime + used.ru_stime, memory.peak, said.read())


def traced(program, folder, calls, *asked):
    """Runs the program under strace. Gives its status, what it printed, and what strace wrote of these calls, with their
    paths."""
    with new_folder() as aside:
        trace = aside / "trace"
        child = subprocess.run(["strace", "-f", "-qq", "-y", "-e", f"trace={calls}", "-e", "signal=none", *asked,
                                "-o", trace, program, "run"], cwd=folder, check=False, stdin=subprocess.DEVNULL,
                               stdout=subprocess.PIPE, stderr=subprocess.DEVNULL)
        return child.returncode, child.stdout, trace.read_text(errors="replace")


def start(program, folder):
    """Starts the program, and doesn't wait for it."""
    return subprocess.Popen([program, "run"], cwd=folder, stdin=subprocess.DEVNULL, stdout=subprocess.DEVNULL,
                            stderr=subprocess.DEVNULL)


def run_for(program, folder, seconds):
    """Runs the program for so long at most. Its status, or None where it was killed."""
    child = start(program, folder)
    try:
        return child.wait(seconds)
    except subprocess.TimeoutExpired:
        os.kill(child.pid, signal.SIGKILL)
        status = child.wait()
        return None if status == -signal.SIGKILL else status


def wait_for(holds, child):
    """Waits until something holds of a process that goes on."""
    for _ in range(60_000):
        if holds():
            return
        if child.poll() is not None:
            raise Wrong(f"the process ended early, with {child.returncode}")
        time.sleep(0.001)
    raise Wrong("it took more than a minute")


def stopped_in(program, folder, paths, call, when, change, then=signal.SIGCONT, more=()):
    """Runs the program, makes a change in the folder behind one of its calls of this name on a path, on one of several, or
    on any for None, and lets it go on or kills it. `more` are further rules for strace. Gives its status, and the names of
    the calls there: of this name, and those that open it."""
    paths = [] if paths is None else [paths] if isinstance(paths, str) else paths
    with new_folder() as aside:
        trace = aside / "trace"
        on_paths = [word for path in paths for word in ("-P", path)]
        child = subprocess.Popen(["strace", "-f", "-q", "-y", *on_paths, "-e", f"trace={call},openat",
                                  "-e", f"inject={call}:signal=SIGSTOP:when={when}", *more, "-o", trace, program, "run"],
                                 cwd=folder, stdin=subprocess.DEVNULL, stdout=subprocess.DEVNULL,
                                 stderr=subprocess.DEVNULL)
        process = wait_for_stop(child, trace)
        try:
            change(folder)
        finally:
            os.kill(process, then)
        try:
            status = child.wait(LONGEST)
        except subprocess.TimeoutExpired as waited:
            os.kill(process, signal.SIGKILL)
            raise Wrong("the program doesn't end") from waited
        return status, re.findall(r"^\d+ +(\w+)\(", trace.read_text(errors="replace"), re.MULTILINE)


def wait_for_stop(child, trace):
    for _ in range(60_000):
        said = trace.read_text(errors="replace") if trace.exists() else ""
        # A short number has spaces behind it.
        found = re.search(r"^(\d+) +--- stopped by SIGSTOP", said, re.MULTILINE)
        if found:
            return int(found.group(1))
        if child.poll() is not None:
            raise Wrong(f"the program ended before it was stopped, with {child.returncode}")
        time.sleep(0.001)
    for line in said.splitlines()[:1]:
        os.kill(int(line.split()[0]), signal.SIGKILL)
    child.kill()
    raise Wrong("the program wasn't stopped within a minute")


def process_state(pid):
    """`T` is that of a process that was stopped."""
    return pathlib.Path(f"/proc/{pid}/stat").read_text().rpartition(")")[2].split()[0]


class Memory(threading.Thread):
    """Follows the peak of a process's memory, in bytes.

    The system's own figure for an ended child counts this process's memory too, from which the child
    was forked. So the peak is read again and again while the child runs; it never falls."""

    def __init__(self, pid):
        super().__init__(daemon=True)
        self.path = pathlib.Path(f"/proc/{pid}/status")
        self.peak = 0
        self.ended = threading.Event()
        self.start()

    def run(self):
        while True:
            try:
                for line in self.path.read_text().splitlines():
                    if line.startswith("VmHWM:"):
                        self.peak = max(self.peak, int(line.split()[1]) * 1024)
            except OSError:
                return
            if self.ended.wait(0.002):
                return

    def stop(self):
        self.ended.set()
        self.join()


def age(path):
    """Sets a file's time of the last write back, so that no run waits for it: none is written any more."""
    before = time.time() - 60
    os.utime(path, (before, before))


def write_files(folder, files):
    """Writes files, given as a map from names to bytes, into a folder that is made where it isn't. No run waits for
    them."""
    folder.mkdir(exist_ok=True)
    for name, content in files.items():
        path = os.path.join(os.fsencode(folder), os.fsencode(name))
        with open(path, "wb") as file:
            file.write(content)
        age(path)


def put_store(folder, files):
    """A folder in which a run finds a store of these files, and an inbox and an outbox of none."""
    for part in ("in", "out"):
        (folder / part).mkdir()
    write_files(folder / "store", {**files, "lock": b"\0"})


def read_files(folder):
    """The regular files of a folder by name, with their bytes."""
    return {entry.name: pathlib.Path(entry.path).read_bytes()
            for entry in os.scandir(folder) if entry.is_file(follow_symlinks=False)}


def names(folder):
    return sorted(os.listdir(folder))


# The file by which a folder aside in `out` is known as a run's, and all that it holds.
MARKER = "flow-marker"
MARK = b"A flow keeps a file here until it is whole.\n"


def unmarked_aside(out):
    """The folders in an outbox that have the name of a folder aside and no whole marker: a stop leaves one where it comes
    before the marker is written, and no run touches it."""
    found = [path for path in out.glob(".flow-aside-*") if path.is_dir()] if out.is_dir() else []
    return [path.name for path in found
            if not (path / MARKER).is_file() or (path / MARKER).read_bytes() != MARK]


def make_foreign_aside(out):
    """Makes what has the name of a folder aside and isn't a run's: folders with and without files, links, folders and
    such a marker as no run makes, and what is no folder. The paths."""
    def folder(path, files=()):
        path.mkdir()
        write_files(path, dict(files))

    def with_all(path):
        folder(path, {"mine": b"1", "part-1": b"2"})
        (path / "link").symlink_to("mine")
        folder(path / "folder", {"inner": b"3"})

    def with_a_link(path):
        folder(path, {"whole": MARK, "part-1": b"5"})
        (path / MARKER).symlink_to("whole")

    def with_a_pipe(path):
        folder(path)
        os.mkfifo(path / MARKER)

    makers = (folder, with_all, lambda path: folder(path, {MARKER: MARK + b"!", "part-1": b"4"}),
              lambda path: folder(path, {MARKER: b""}), with_a_link, with_a_pipe,
              lambda path: (path / MARKER).mkdir(parents=True), lambda path: path.write_bytes(MARK),
              lambda path: path.symlink_to(".flow-aside-1"), lambda path: path.symlink_to("nowhere"), os.mkfifo)
    paths = [out / f".flow-aside-{number}" for number in range(len(makers))]
    for path, make in zip(paths, makers):
        make(path)
    return paths


def none_aside(folder):
    """No folder aside is left in `out` by a run that ended by itself, whatever its status."""
    out = folder / "out"
    left = [path.name for path in out.glob(".flow-aside-*") if path.is_dir()] if out.is_dir() else []
    need(not left, f"out has {left}")


def photo(*folders):
    """All that stands in these folders: kind, times, size and bytes of each entry, and of the folders."""
    seen = {}
    for folder in folders:
        if not os.path.lexists(folder):
            seen[str(folder)] = None
            continue
        for path in [folder, *sorted(pathlib.Path(folder).rglob("*"))] if folder.is_dir() else [folder]:
            found = os.lstat(path)
            content = None
            if stat.S_ISREG(found.st_mode):
                content = hashlib.sha256(path.read_bytes()).hexdigest()
            seen[str(path)] = (stat.S_IFMT(found.st_mode), found.st_ino, found.st_size,
                               found.st_mtime_ns, found.st_ctime_ns, content)
    return seen


class Wrong(Exception):
    """What a case found wrong."""


def need(holds, what):
    if not holds:
        raise Wrong(what)


def need_status(ended, status):
    need(ended.status == status, f"status {ended.status} where {status} is wanted; it said {ended.said!r}")


class Report:
    """Runs cases, prints a line for each, and at the end how many passed."""

    def __init__(self):
        self.passed = 0
        self.failed = 0

    def case(self, text, body, *given):
        start = time.monotonic()
        try:
            note = body(*given)
        except Wrong as wrong:
            self.failed += 1
            print(f"FAILED  {text}: {wrong}", flush=True)
            return
        self.passed += 1
        note = f" ({note})" if note else ""
        print(f"ok      {text}{note}, {time.monotonic() - start:.1f} s", flush=True)

    def end(self):
        print(f"{self.passed} passed, {self.failed} failed", flush=True)
        sys.exit(1 if self.failed or not self.passed else 0)
