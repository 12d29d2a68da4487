"""Builds the package: cargo builds libkundatrezo_edge.so, which it calls, and the program, from the repository's Rust crates and libkundatrezo.a.

The archive lies in the folder that the environment variable KUNDATREZO_LIB_DIR names, or in target/library of the repository, where ./setup puts it.
"""

import os
import re
import shutil
import subprocess
from pathlib import Path

from setuptools import Distribution, setup
from setuptools.command.build_py import build_py

try:
    from setuptools.command.bdist_wheel import bdist_wheel
except ImportError:  # before setuptools 70.1
    from wheel.bdist_wheel import bdist_wheel
from distutils.command.build_scripts import build_scripts

HERE = Path(__file__).resolve().parent
RUST = (HERE.parent / "rust").resolve()
LIBRARY, PROGRAM = "libkundatrezo_edge.so", "kundatrezo"


def archive() -> Path:
    """The archive that library and program are linked from."""
    folder = os.environ.get("KUNDATREZO_LIB_DIR")
    found = Path(folder) / "libkundatrezo.a" if folder else HERE.parent / "target/library/libkundatrezo.a"
    if not found.is_file():
        remedy = "'./setup --library' in the repository's folder puts it there; KUNDATREZO_LIB_DIR names another folder"
        raise SystemExit(f"there is no {found}: {remedy}")
    return found.resolve()


def require_cargo() -> None:
    """That there is a cargo, and that it is not too old."""
    if not (RUST / "Cargo.toml").is_file():
        raise SystemExit(f"there is no {RUST / 'Cargo.toml'}: the package is built in the repository's folder, beside the Rust crate")
    wanted = re.findall(r'^rust-version = "(\d+)\.(\d+)"', (RUST / "Cargo.toml").read_text(), re.MULTILINE)[0]
    try:
        said = subprocess.run(["cargo", "--version"], capture_output=True, text=True, check=True).stdout
    except (OSError, subprocess.CalledProcessError) as error:
        raise SystemExit(f"the package is built by cargo {'.'.join(wanted)} or later, and there is none: {error}") from None
    found = re.match(r"cargo (\d+)\.(\d+)", said)
    if not found or tuple(map(int, found.groups())) < tuple(map(int, wanted)):
        raise SystemExit(f"the package is built by cargo {'.'.join(wanted)} or later, and this one is older: {said.strip()}")


def built(package: str, file: str) -> Path:
    """What cargo builds of a package of the Rust workspace."""
    require_cargo()
    target = RUST / "target"
    command = ["cargo", "build", "--offline", "--quiet", "--release", "--package", package, "--target-dir", str(target)]
    subprocess.run(command, cwd=RUST, env={**os.environ, "KUNDATREZO_LIB_DIR": str(archive().parent)}, check=True)
    return target / "release" / file


class Build(build_py):
    """Copies the modules and puts the library beside them."""

    def run(self) -> None:
        super().run()
        folder = HERE / "kundatrezo" if self.editable_mode else Path(self.build_lib) / "kundatrezo"
        folder.mkdir(parents=True, exist_ok=True)
        shutil.copy(built("kundatrezo-edge", LIBRARY), folder)


class BuildProgram(build_scripts):
    """Puts the program among the scripts. It is no text, whose first line would be changed."""

    def run(self) -> None:
        Path(self.build_dir).mkdir(parents=True, exist_ok=True)
        shutil.copy(built("kundatrezo-program", PROGRAM), self.build_dir)

    def get_source_files(self) -> list[str]:
        return []


class Wheel(bdist_wheel):
    """A wheel for every Python 3 of a platform: the library is called by ctypes, and not by the interpreter's own interface."""

    def get_tag(self) -> tuple[str, str, str]:
        return "py3", "none", super().get_tag()[2]


class Binary(Distribution):
    """A package for one kind of machine."""

    def has_ext_modules(self) -> bool:
        return True


setup(cmdclass={"build_py": Build, "build_scripts": BuildProgram, "bdist_wheel": Wheel}, distclass=Binary, scripts=[PROGRAM])
