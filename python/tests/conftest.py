"""The library for the tests: what NUIGATRE_LIBRARY names, or what tools/targets.py made for this machine."""

import os
import pathlib
import platform
import sys

import pytest

TOP = pathlib.Path(__file__).resolve().parent.parent.parent
sys.path.insert(0, str(TOP / "python"))
MADE = TOP / "crates" / "nuigatre" / "out" / platform.machine() / "libnuigatre.so"

if "NUIGATRE_LIBRARY" not in os.environ and not (TOP / "python" / "nuigatre" / "libnuigatre.so").is_file():
    os.environ["NUIGATRE_LIBRARY"] = str(MADE)


@pytest.fixture(scope="session")
def examples():
    """What reads a file of the examples."""
    return lambda name: (TOP / "examples" / name).read_bytes()


@pytest.fixture(scope="session", autouse=True)
def has_library():
    import nuigatre

    try:
        nuigatre.is_proved()
    except nuigatre.NoLibrary as why:
        pytest.exit(f"{why}: tools/targets.py makes it, and checks/web.py --only python runs these tests over a packed one", returncode=1)
