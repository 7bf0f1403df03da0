"""The package: its version, what pip makes of it without a network, and its types."""
import importlib.util
import os
import re
import subprocess
import sys
import tarfile
import tempfile
import unittest
import zipfile
from pathlib import Path

from running import CLIENT, PROGRAM, tabd

MODULES = sorted(path.name for path in (CLIENT / "tabd").glob("*.py"))
OFFLINE = {"PIP_NO_INDEX": "1", "PIP_FIND_LINKS": "", "PIP_DISABLE_PIP_VERSION_CHECK": "1"}
QUICKLY = {"PIP_NO_COMPILE": "1", "PIP_NO_WARN_CONFLICTS": "1"}


def start(*words: object, **environment: str) -> "subprocess.Popen[str]":
    """Python with these words, and with this besides its environment."""
    settings = {**os.environ, "PYTHONDONTWRITEBYTECODE": "1", **environment}
    command = [sys.executable, *map(str, words)]
    return subprocess.Popen(command, stdin=subprocess.DEVNULL, stdout=subprocess.PIPE, stderr=subprocess.PIPE, text=True, env=settings)


def run(*words: object, **environment: str) -> "tuple[str, str, int]":
    """What it says, its errors and its status."""
    process = start(*words, **environment)
    said, errors = process.communicate(timeout=600)
    return said, errors, process.returncode


# pip takes as long as all other tests together, so it begins when this module is loaded
TARGET = tempfile.TemporaryDirectory()
PIP = None
if importlib.util.find_spec("pip"):
    PIP = start("-m", "pip", "install", "-q", "--target", TARGET.name, CLIENT, **OFFLINE, **QUICKLY)


def tearDownModule() -> None:
    TARGET.cleanup()


class Package(unittest.TestCase):
    def setUp(self) -> None:
        folder = tempfile.TemporaryDirectory()
        self.addCleanup(folder.cleanup)
        self.folder = Path(folder.name)

    def test_its_version_is_the_program_s(self) -> None:
        self.assertEqual(subprocess.check_output([PROGRAM, "--version"], text=True), f"tabd {tabd.__version__}\n")

    def test_all_public_names(self) -> None:
        self.assertEqual([name for name in tabd.__all__ if not hasattr(tabd, name)], [])
        errors = {name for name, kind in vars(tabd.errors).items() if isinstance(kind, type) and issubclass(kind, Exception)}
        self.assertLessEqual(errors, set(tabd.__all__))

    @unittest.skipUnless(PIP, "pip install (there is no pip)")
    def test_pip_installs_it_offline(self) -> None:
        assert PIP
        _, errors = PIP.communicate(timeout=600)
        self.assertEqual(PIP.returncode, 0, errors)
        target = Path(TARGET.name)
        self.assertEqual(sorted(path.name for path in (target / "tabd").glob("*.py")), MODULES)
        asked = "import importlib.metadata as m, tabd; print(tabd.__file__, tabd.__version__, m.version('tabd'))"
        said, _, _ = run("-c", asked, PYTHONPATH=str(target))
        self.assertEqual(said.split(), [str(target / "tabd/__init__.py"), tabd.__version__, tabd.__version__])

    def test_what_is_built(self) -> None:
        name = f"tabd-{tabd.__version__}"
        (self.folder / "linked").mkdir()
        for ask, where, wanted in (
            ("build_wheel", self.folder, f"{name}-py3-none-any.whl"),
            ("build_editable", self.folder / "linked", f"{name}-py3-none-any.whl"),
            ("build_sdist", self.folder, f"{name}.tar.gz"),
        ):
            build = f"import sys; sys.path.insert(0, {str(CLIENT)!r}); import _build; print(_build.{ask}({str(where)!r}))"
            self.assertEqual(run("-c", build), (f"{wanted}\n", "", 0))
        with zipfile.ZipFile(self.folder / f"{name}-py3-none-any.whl") as archive:
            self.assertIsNone(archive.testzip())
            recorded = [line.split(",")[0] for line in archive.read(f"{name}.dist-info/RECORD").decode().splitlines()]
            self.assertEqual(sorted(recorded), sorted(archive.namelist()))
            self.assertEqual({file for file in recorded if file.startswith("tabd/")}, {"tabd/py.typed", *(f"tabd/{file}" for file in MODULES)})
        with zipfile.ZipFile(self.folder / f"linked/{name}-py3-none-any.whl") as archive:
            self.assertEqual(archive.read("tabd.pth").decode(), f"{CLIENT}\n")
        with tarfile.open(self.folder / f"{name}.tar.gz") as tarball:
            files = {re.sub(rf"^{re.escape(name)}/", "", file) for file in tarball.getnames()}
        self.assertEqual(files, {"PKG-INFO", "README.md", "_build.py", "pyproject.toml", "tabd/py.typed", *(f"tabd/{file}" for file in MODULES)})

    @unittest.skipUnless(importlib.util.find_spec("mypy"), "mypy --strict (there is no mypy)")
    def test_types(self) -> None:
        files = [CLIENT / "tabd", CLIENT / "_build.py", CLIENT / "tests/typed.py"]
        said, _, status = run("-m", "mypy", "--strict", "--cache-dir", self.folder, "--config-file", CLIENT / "pyproject.toml", *files)
        self.assertEqual(status, 0, said)
