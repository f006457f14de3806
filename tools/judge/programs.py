"""The programs that answer cases: the oracle, its twin by the paper's rule, and the C calls."""

import os
import platform
import shutil
import subprocess
from dataclasses import dataclass
from pathlib import Path

from .formats import split_answers

ROOT = Path(__file__).resolve().parents[2]
TOOLS = ROOT / "tools"
BUILT = ROOT / "target" / "judge"
SOURCE = ROOT / "../shared/docs/src"
ARCHIVE = ROOT / "target/staticlib/libhejmirov.a"

# No case of a run takes the slowest program this long.
PATIENCE_SECONDS = 600

# What the first byte of an answer says.
ANSWERED, PANICKED, NOT_RUN, NO_SUCH_CALL, STRAYED, PARTED, LOST, MISTIMED = range(8)


@dataclass(frozen=True)
class Program:
    name: str
    command: tuple[str, ...]

    def answers(self, cases: list[bytes]) -> list[bytes | None]:
        """Each case's answer with its status byte; None where the program died or hung."""
        answers: list[bytes | None] = []
        while len(answers) < len(cases):
            answers += split_answers(self.output(b"".join(cases[len(answers) :])))
            if len(answers) < len(cases):
                answers.append(None)
        return answers

    def output(self, data: bytes) -> bytes:
        quiet = {"stdout": subprocess.PIPE, "stderr": subprocess.DEVNULL}
        try:
            return subprocess.run(self.command, input=data, timeout=PATIENCE_SECONDS, **quiet).stdout
        except subprocess.TimeoutExpired as expired:
            return expired.stdout or b""


def build_oracle(src: Path, paper: bool = False) -> Program:
    command = [TOOLS / "oracle/build", "--src", src, *(["--paper"] if paper else [])]
    built = subprocess.run(command, check=True, capture_output=True, text=True)
    name = "the Rust by the paper's rule" if paper else "the Rust"
    return Program(name, (built.stdout.strip(),))


def link(compiler: list[str], objects: list[str], name: str, source: str = "subject.c") -> str:
    """A driver with the calls; `--whole-archive` since the subject's symbols are weak."""
    BUILT.mkdir(parents=True, exist_ok=True)
    built = BUILT / name
    whole = ["-Wl,--whole-archive", *objects, "-Wl,--no-whole-archive"]
    command = [*compiler, "-std=c11", "-O1", "-o", built, TOOLS / source, *whole]
    subprocess.run(command, check=True)
    return str(built)


def kit() -> Path:
    """The folder of the kit that `rt` belongs to."""
    return Path(os.environ.get("RATTLE_HOME") or Path(shutil.which("rt")).resolve().parents[1])


def kit_tools() -> Path:
    return kit() / "on" / platform.machine() / "toolchain/bin"


def with_archive(archive: Path, name: str, source: str) -> tuple[str, ...]:
    """A driver of the archive that ships: x86-64, so on other machines by cross compiler and emulator."""
    if platform.machine() == "x86_64":
        return (link(["gcc"], [str(archive)], name, source),)
    built = link(["x86_64-linux-gnu-gcc", "-static"], [str(archive)], name, source)
    return (str(kit_tools() / "qemu-x86_64"), built)


def build_subject(archive: Path) -> Program:
    return Program("the C call", with_archive(archive, "subject", "subject.c"))


def kinds_there(subject: Program) -> set[str]:
    listed = subprocess.run([*subject.command, "kinds"], check=True, capture_output=True, text=True)
    return set(listed.stdout.split())
