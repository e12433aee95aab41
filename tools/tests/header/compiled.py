"""C programs over the headers of include/, built with sanitizers and linked with the library."""

import shutil
import subprocess
import tempfile
import unittest
from collections.abc import Callable
from functools import cache
from pathlib import Path

from tests.planners import LIBRARY, ROOT

HERE = Path(__file__).resolve().parent
INCLUDE = ROOT / "include"
WARNINGS = ["-Wall", "-Wextra", "-pedantic", "-Werror"]
C99 = ["cc", "-std=c99"]
CXX11 = ["c++", "-std=c++11", "-x", "c++"]
SANITIZED = ["-g", "-fsanitize=address,undefined", "-fno-sanitize-recover=all"]


def with_compiler(compiler: str) -> Callable[[type], type]:
    return unittest.skipIf(shutil.which(compiler) is None, f"there is no {compiler}")


@cache
def sanitizers() -> list[str]:
    """None where the compiler has none."""
    program = b"int main(void) { return 0; }"
    with tempfile.TemporaryDirectory() as folder:
        command = [*C99, *SANITIZED, "-x", "c", "-", "-o", f"{folder}/empty"]
        tried = subprocess.run(command, input=program, stderr=subprocess.DEVNULL)
    return [] if tried.returncode else SANITIZED


def compiled(source: Path, program: Path, compiler: list[str] = C99) -> Path:
    """A program that is warning-free, linked with the library that is tested."""
    library = LIBRARY.resolve()
    linked = ["-x", "none", str(library), f"-Wl,-rpath,{library.parent}"]
    command = [*compiler, *WARNINGS, *sanitizers(), f"-I{INCLUDE}", str(source), *linked]
    subprocess.run([*command, "-o", str(program)], check=True)
    return program


def output_of(program: Path, given: bytes = b"") -> str:
    done = subprocess.run([str(program)], input=given, stdout=subprocess.PIPE, check=True)
    return done.stdout.decode()
