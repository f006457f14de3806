"""The C calls compiled for this machine, for large runs and for timing where the x86-64 archive needs an emulator.

`rt lib` hands one LLVM module to the kit's clang. A shadow of the kit, links all through but
for a clang that keeps a copy of that module, gives us the very module that the archive is made of.
"""

import os
import platform
import shutil
import subprocess
import sys
from pathlib import Path

from . import programs

KEEPING_CLANG = """#!/bin/sh
for word; do case $word in *.bc) cp "$word" "{module}" ;; esac; done
exec "{clang}" "$@"
"""


def link_all(source: Path, shadow: Path, but: str) -> None:
    shadow.mkdir(parents=True)
    for path in source.iterdir():
        if path.name != but:
            (shadow / path.name).symlink_to(path)


def shadow_kit(folder: Path, module: Path) -> None:
    machine, kit = platform.machine(), programs.kit()
    shutil.rmtree(folder, ignore_errors=True)
    link_all(kit, folder, "on")
    own, shadow = kit / "on" / machine, folder / "on" / machine
    link_all(own, shadow, "toolchain")
    link_all(own / "toolchain", shadow / "toolchain", "bin")
    link_all(own / "toolchain/bin", shadow / "toolchain/bin", "clang")
    clang = shadow / "toolchain/bin/clang"
    clang.write_text(KEEPING_CLANG.format(module=module, clang=programs.kit_tools() / "clang"))
    clang.chmod(0o755)


def compiled(crate: str = "hejmirov") -> Path:
    """The archive's module as an object file for this machine."""
    folder, module = programs.BUILT / "kit", programs.BUILT / f"{crate}.bc"
    module.parent.mkdir(parents=True, exist_ok=True)
    module.unlink(missing_ok=True)
    shadow_kit(folder, module)
    shadow = {**os.environ, "RATTLE_HOME": str(folder)}
    subprocess.run(["rt", "lib"], check=True, cwd=programs.ROOT / "crates" / crate, env=shadow, stdout=subprocess.DEVNULL)
    built = programs.BUILT / f"{crate}.o"
    target = f"--target={platform.machine()}-unknown-linux-gnu"
    command = [programs.kit_tools() / "clang", target, "-O3", "-c", "-x", "ir", module, "-o", built]
    # It warns at length that the module names x86-64's processor: that is for its failures to show.
    done = subprocess.run(command, capture_output=True, text=True)
    if done.returncode != 0:
        sys.exit(done.stderr)
    return built


def build_subject() -> programs.Program:
    built = programs.link(["gcc"], [str(compiled())], "host")
    return programs.Program("the C call, built for this machine", (built,))
