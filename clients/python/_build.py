"""Builds the package for pip, over the standard library alone: a wheel is an archive of the modules with three files about them.

The version is the one line of tabd/__init__.py that says `__version__`; the rest is said by pyproject.toml.
"""
from __future__ import annotations

import base64
import hashlib
import io
import re
import tarfile
import zipfile
from pathlib import Path
from typing import Any, Dict, Optional

HERE = Path(__file__).resolve().parent
WHEEL = "Wheel-Version: 1.0\nGenerator: tabd\nRoot-Is-Purelib: true\nTag: py3-none-any\n"


def said(file: str, name: str) -> str:
    """What a line NAME = "TEXT" of a file says."""
    found = re.search(rf'^{name} = "(.*)"$', (HERE / file).read_text(encoding="utf-8"), re.MULTILINE)
    assert found, f"{file} doesn't say its {name}"
    return found[1]


STEM = f"tabd-{said('tabd/__init__.py', '__version__')}"


def metadata() -> str:
    lines = [
        "Metadata-Version: 2.1",
        "Name: tabd",
        f"Version: {said('tabd/__init__.py', '__version__')}",
        f"Summary: {said('pyproject.toml', 'description')}",
        f"Requires-Python: {said('pyproject.toml', 'requires-python')}",
        "Description-Content-Type: text/markdown",
    ]
    return "\n".join(lines) + "\n\n" + (HERE / "README.md").read_text(encoding="utf-8")


def wheel(folder: str, contents: Dict[str, bytes]) -> str:
    """Writes a wheel of these files and gives its name."""
    about = f"{STEM}.dist-info"
    files = {**contents, f"{about}/METADATA": metadata().encode(), f"{about}/WHEEL": WHEEL.encode()}
    record = ""
    for name, content in files.items():
        digest = base64.urlsafe_b64encode(hashlib.sha256(content).digest()).rstrip(b"=").decode()
        record += f"{name},sha256={digest},{len(content)}\n"
    files[f"{about}/RECORD"] = f"{record}{about}/RECORD,,\n".encode()
    with zipfile.ZipFile(Path(folder, f"{STEM}-py3-none-any.whl"), "w", zipfile.ZIP_DEFLATED) as archive:
        for name, content in files.items():
            # a fixed day, so that the same sources are the same bytes
            archive.writestr(zipfile.ZipInfo(name, (1980, 1, 1, 0, 0, 0)), content, zipfile.ZIP_DEFLATED)
    return f"{STEM}-py3-none-any.whl"


# ---- What pip calls (PEP 517, PEP 660).


def build_wheel(wheel_directory: str, config_settings: Any = None, metadata_directory: Optional[str] = None) -> str:
    modules = sorted(path for path in (HERE / "tabd").iterdir() if path.suffix in (".py", ".typed"))
    return wheel(wheel_directory, {f"tabd/{path.name}": path.read_bytes() for path in modules})


def build_editable(wheel_directory: str, config_settings: Any = None, metadata_directory: Optional[str] = None) -> str:
    return wheel(wheel_directory, {"tabd.pth": f"{HERE}\n".encode()})


def build_sdist(sdist_directory: str, config_settings: Any = None) -> str:
    with tarfile.open(Path(sdist_directory, f"{STEM}.tar.gz"), "w:gz", format=tarfile.PAX_FORMAT) as archive:
        for path in sorted([HERE / "pyproject.toml", HERE / "_build.py", HERE / "README.md", *(HERE / "tabd").glob("*.py"), HERE / "tabd/py.typed"]):
            archive.add(path, f"{STEM}/{path.relative_to(HERE)}")
        about = tarfile.TarInfo(f"{STEM}/PKG-INFO")
        about.size = len(metadata().encode())
        archive.addfile(about, io.BytesIO(metadata().encode()))
    return f"{STEM}.tar.gz"
