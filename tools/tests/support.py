"""What the tests share: the tools as modules and as programs, and the program itself where it is built."""
from __future__ import annotations

import contextlib
import importlib.machinery
import importlib.util
import io
import os
import subprocess
import sys
from types import ModuleType
from typing import Callable, Optional, Sequence
from unittest import mock

TOOLS = os.path.dirname(os.path.dirname(os.path.abspath(__file__)))
TOP = os.path.dirname(TOOLS)
EXAMPLES = os.path.join(TOP, "examples")
sys.path.insert(0, TOOLS)
sys.dont_write_bytecode = True


def module(name: str) -> ModuleType:
    """A tool as a module."""
    if name not in sys.modules:
        loader = importlib.machinery.SourceFileLoader(name, os.path.join(TOOLS, name))
        made = importlib.util.module_from_spec(importlib.util.spec_from_loader(name, loader))
        sys.modules[name] = made
        loader.exec_module(made)
    return sys.modules[name]


def run(tool: str, *words: str, cwd: Optional[str] = None) -> subprocess.CompletedProcess:
    """A tool run as a program."""
    return subprocess.run([sys.executable, os.path.join(TOOLS, tool), *words], capture_output=True, text=True, cwd=cwd,
                          check=False)


def call(tool: str, work: Callable[[ModuleType], None], words: Sequence[str], cwd: str) -> subprocess.CompletedProcess:
    """A tool's work done in this process, which saves a start of Python."""
    made, before, said = module(tool), os.getcwd(), io.StringIO()
    try:
        os.chdir(cwd)
        with mock.patch.object(sys, "argv", [tool, *words]), contextlib.redirect_stderr(said):
            status = made.status_of(tool, lambda: work(made))
    except SystemExit as end:
        status = end.code
    finally:
        os.chdir(before)
    return subprocess.CompletedProcess([tool, *words], status, "", said.getvalue())


def program() -> Optional[str]:
    """The built program: the one that RESHARD names, or the repository's own."""
    path = os.environ.get("RESHARD") or os.path.join(TOP, "crates", "resh_cli", "out", "resh_cli")
    return path if os.access(path, os.X_OK) else None


def example(name: str) -> str:
    """The path of an example."""
    return os.path.join(EXAMPLES, name)
