"""Plays a command, whole or with a refusal of what it asks of the C library (refuse.c), over all processors."""
import hashlib
import multiprocessing
import os
import shutil
import struct
import subprocess
import sys
import tempfile
from dataclasses import dataclass, field

HERE = os.path.dirname(os.path.abspath(__file__))
TOP = os.path.dirname(os.path.dirname(HERE))
KINDS = ("alloc", "open", "read", "write", "error", "thread", "seek")
SECONDS = 60


@dataclass(frozen=True)
class Refusal:
    """Call number `at` of a kind is refused, in a manner; with `on` each later one too. At 0 none is."""
    kind: str = "alloc"
    at: int = 0
    manner: str = "fail"
    on: bool = False


@dataclass(frozen=True)
class Job:
    """A command, what it reads, and what it is refused. `key` tells its answer apart from others'."""
    key: object
    words: tuple
    stdin: bytes = b""
    refusal: Refusal = Refusal()
    watched: bool = True


@dataclass
class Answer:
    status: int
    out: bytes
    err: bytes
    counts: dict = field(default_factory=dict)
    refused: int = 0

    def short(self):
        told = self.err.decode(errors="replace").strip().replace("\n", " | ")[:120]
        return f"status {self.status}, {len(self.out)} bytes, {told!r}"


_library = None
_room = None


def begin(library, room):
    """In each process that plays: where the library is, and where files may be put."""
    global _library, _room
    _library, _room = library, room


def play(job):
    """The key of a job, and its answer; status None where there is none in time."""
    words, environment = list(job.words), {"PATH": os.environ.get("PATH", "")}
    tally = os.path.join(_room, f"tally.{os.getpid()}")
    if job.watched:
        environment |= {"LD_PRELOAD": _library, "TALLY": tally, "REFUSE": job.refusal.kind,
                        "REFUSE_AT": str(job.refusal.at), "REFUSE_HOW": job.refusal.manner}
        if job.refusal.on:
            environment["REFUSE_ON"] = "1"
    try:
        done = subprocess.run(words, input=job.stdin, capture_output=True, env=environment, cwd=_room, timeout=SECONDS)
    except subprocess.TimeoutExpired as late:
        return job.key, Answer(None, late.stdout or b"", b"no answer in time")
    answer = Answer(done.returncode, done.stdout, done.stderr)
    if job.watched:
        with open(tally, "rb") as file:
            numbers = struct.unpack("8Q", file.read(64))
        answer.counts = dict(zip(KINDS, numbers))
        answer.refused = numbers[len(KINDS)]
    return job.key, answer


class Players:
    """A library to preload, a folder for files, and a process for each processor."""

    def __enter__(self):
        self.room = tempfile.mkdtemp(prefix="hostile-", dir="/dev/shm" if os.access("/dev/shm", os.W_OK) else None)
        self.library = self.built("refuse", "-shared", "-fPIC")
        self.pool = multiprocessing.Pool(os.cpu_count(), begin, (self.library, self.room))
        return self

    def __exit__(self, *_):
        if hasattr(self, "pool"):
            self.pool.terminate()
        shutil.rmtree(self.room, ignore_errors=True)

    def built(self, name, *words):
        """The path of what the C file of this name is compiled to."""
        path = os.path.join(self.room, name)
        compiler = os.environ.get("CC") or shutil.which("cc") or shutil.which("gcc") or shutil.which("clang")
        if not compiler:
            self.__exit__()
            sys.exit(f"hostile: no C compiler (cc, gcc or clang), which {name}.c needs")
        if subprocess.run([compiler, "-O2", *words, "-o", path, os.path.join(HERE, f"{name}.c")]).returncode:
            self.__exit__()
            sys.exit(f"hostile: {name}.c does not compile")
        return path

    def file(self, text):
        """The path of a file of these bytes."""
        path = os.path.join(self.room, "text." + hashlib.sha256(text).hexdigest()[:24])
        if not os.path.exists(path):
            with open(path, "wb") as file:
                file.write(text)
        return path

    def all(self, jobs, size=8):
        """Keys and answers, in any order."""
        return self.pool.imap_unordered(play, jobs, size)

    def one(self, job):
        return self.pool.apply(play, (job,))[1]


def sweep(players, job, kind, manner="fail", on=False, most=None, whole=None):
    """The answer of a job of which nothing is refused, and for each number N from 1 on its answer where call N
    is, by N, up to the first run that meets no refusal. Where there are more than `most` such calls, so many are taken."""
    whole = whole or players.one(job)
    calls = whole.counts[kind]
    made = lambda at: Job(at, job.words, job.stdin, Refusal(kind, at, manner, on))
    numbers = [*range(1, calls + 1, 1 if most is None else calls // most + 1), calls + 1]
    answers = dict(players.all(map(made, numbers)))
    at = calls + 1
    while answers[at].refused:
        at += 1
        answers[at] = players.one(made(at))
    return whole, answers
