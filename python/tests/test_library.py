"""Which library is loaded, what it must have, and what builds it."""

from __future__ import annotations

import ast
import ctypes
import os
import re
import shutil
import subprocess
import sys

import pytest
from conftest import REPOSITORY

from kundatrezo import _library


def imported(folder, library, code="import kundatrezo._library; print(kundatrezo._library.PATH)"):
    """What a new process that imports the package prints, and its last line of errors."""
    environment = {**os.environ, "KUNDATREZO_LIBRARY": library}
    done = subprocess.run([sys.executable, "-c", code], cwd=folder, env=environment, capture_output=True, text=True)
    return done.stdout.strip(), (done.stderr.strip().splitlines() or [""])[-1]


def test_a_relative_path_starts_from_the_current_folder(tmp_path):
    shutil.copy(_library.PATH, tmp_path / "x.so")
    (tmp_path / "inner").mkdir()
    for folder, library in [(tmp_path, "./x.so"), (tmp_path, "x.so"), (tmp_path / "inner", "../x.so"), (tmp_path, str(tmp_path / "x.so"))]:
        path, errors = imported(folder, library)
        assert os.path.isabs(path) and os.path.samefile(path, tmp_path / "x.so"), errors
    # a bare name is no library of the system
    assert "libm.so.6: cannot open shared object file" in imported(tmp_path, "libm.so.6")[1]
    assert imported(tmp_path, "") == (str(_library.PATH), "")


def test_all_calls_are_looked_up_first(tmp_path):
    names = [f"kundatrezo_edge_{name}" for name in _library._NAMES]
    for left in [[], names[:1], names[1:], names[:-1]]:
        source = "".join(f"void {name}(void) {{}}\n" for name in left)
        subprocess.run(["cc", "-shared", "-x", "c", "-", "-o", tmp_path / "old.so"], input=source, text=True, check=True)
        missing = ", ".join(name for name in names if name not in left)
        said = f"ImportError: {tmp_path / 'old.so'} lacks {missing}: it is another library, or older than this package"
        assert imported(tmp_path, "./old.so") == ("", said)


def test_the_calls_are_those_of_the_declaration():
    """Names, order and types of the parameters, as rust/edge declares them; the library says them, and the package makes no other calls."""
    source = (REPOSITORY / "rust/edge/src/lib.rs").read_text()
    found = re.findall(r"^ *(?:pub unsafe extern \"C\" )?fn kundatrezo_edge_(\w+)\(([^)]*)\)", source, re.MULTILINE)
    declared = {name: re.findall(r"(\w+): (\w+)", parameters) for name, parameters in found}
    assert len(declared) == len(found) and declared.pop("free") == [("reply", "Reply")]
    said = re.findall(r"kundatrezo_edge_(\w+)\((.*)\)", _library.call("declarations").text.decode())
    assert {name: re.findall(r"(\w+): (\w+), ", parameters) for name, parameters in said} == declared
    types = {"u64": ctypes.c_uint64, "Handle": ctypes.c_void_p}
    for name, parameters in declared.items():
        assert _library._kinds[name] == [kind for _, kind in parameters]
        assert _library._functions[name].argtypes == [types.get(kind, _library._List) for _, kind in parameters]
    assert sorted(_library._NAMES) == sorted([*declared, "free"])
    lists = (REPOSITORY / "rust/edge/src/lists.rs").read_text()
    for name, structure in (("Reply", _library._Reply), ("Bytes", _library._List), ("Words", _library._List), ("WordsMut", _library._List)):
        body = re.search(rf"pub struct {name} \{{([^}}]*)\}}", lists)[1]
        assert re.findall(r"pub (\w+): ", body) == [field for field, _ in structure._fields_]


def calls_of(tree):
    """The calls of the library that a module makes, with the number of their arguments, None if some are starred."""
    for node in ast.walk(tree):
        if isinstance(node, ast.Call) and isinstance(node.func, ast.Name) and node.func.id in ("call", "finalize"):
            name, *arguments = node.args if node.func.id == "call" else node.args[2:]
            if isinstance(name, ast.Constant):
                yield name.value, None if any(isinstance(argument, ast.Starred) for argument in arguments) else len(arguments)


def test_calls_have_their_arguments():
    made = [found for path in _library.PATH.parent.glob("*.py") for found in calls_of(ast.parse(path.read_text()))]
    assert {name for name, _ in made} | {"by_shot", "by_outcome", "free"} == set(_library._NAMES)
    assert all(count in (None, len(_library._kinds[name])) for name, count in made)


@pytest.mark.parametrize(
    "script, said",
    [
        (None, "the package is built by cargo 1.89 or later, and there is none: [Errno 2] No such file or directory: 'cargo'"),
        ("echo cargo 1.70.0", "the package is built by cargo 1.89 or later, and this one is older: cargo 1.70.0"),
        ("no crate", "there is no {folder}/rust/Cargo.toml: the package is built in the repository's folder, beside the Rust crate"),
        ("echo cargo 0.90.0", "the package is built by cargo 1.89 or later, and this one is older: cargo 0.90.0"),
    ],
)
def test_the_build_says_that_it_needs_cargo(tmp_path, script, said):
    folder = tmp_path / "python"
    shutil.copytree(REPOSITORY / "python", folder, ignore=shutil.ignore_patterns("build", "*.egg-info", "*.so"))
    if script != "no crate":
        (tmp_path / "rust").symlink_to(REPOSITORY / "rust")
    (tmp_path / "bin").mkdir()
    if script:
        (tmp_path / "bin/cargo").write_text(f"#!/bin/sh\n{script}\n")
        (tmp_path / "bin/cargo").chmod(0o755)
    environment = {**os.environ, "PATH": f"{tmp_path / 'bin'}:/usr/bin:/bin" if script else str(tmp_path / "bin")}
    done = subprocess.run([sys.executable, "setup.py", "-q", "build_py"], cwd=folder, env=environment, capture_output=True, text=True)
    assert (done.returncode, done.stderr.strip().splitlines()[-1]) == (1, said.format(folder=tmp_path))
    assert not list((folder / "build").rglob("*.so"))
