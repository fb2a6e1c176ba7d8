"""Builds the package for pip and its like (PEP 517, PEP 660), by the standard library alone.

The package's metadata are the tables `project` and `project.scripts` of pyproject.toml, each key of
which has a line of its own, and `bivrang.__version__`.
"""
import ast
import base64
import hashlib
import io
import pathlib
import re
import tarfile
import zipfile
from typing import Any, Dict, List

FOLDER = pathlib.Path(__file__).resolve().parent
Files = Dict[str, bytes]
"""Contents by name."""


def _table(name: str) -> Dict[str, Any]:
    """A table of pyproject.toml."""
    text = (FOLDER / "pyproject.toml").read_text()
    table = text.split(f"\n[{name}]\n")[1].split("\n[")[0]
    lines = re.findall(r"^([a-z-]+) = (.+)$", table, re.MULTILINE)
    return {key: ast.literal_eval(value) for key, value in lines}


def _project() -> Dict[str, Any]:
    """The table `project`, with the version."""
    module = (FOLDER / "bivrang/__init__.py").read_text()
    version = re.findall(r'^__version__ = "(.+)"$', module, re.MULTILINE)
    return {"version": version[0], **_table("project")}


def _package() -> Files:
    """The files of the package."""
    found = sorted(path for path in FOLDER.glob("bivrang/*") if path.suffix in (".py", ".typed"))
    return {f"bivrang/{path.name}": path.read_bytes() for path in found}


def _metadata() -> bytes:
    project = _project()
    lines = [
        "Metadata-Version: 2.1",
        f"Name: {project['name']}",
        f"Version: {project['version']}",
        f"Summary: {project['description']}",
        f"License: {project['license']}",
        f"Requires-Python: {project['requires-python']}",
    ]
    return "\n".join([*lines, ""]).encode()


def _entry_points() -> bytes:
    """The commands that pip makes."""
    lines = [f"{name} = {place}" for name, place in _table("project.scripts").items()]
    return "\n".join(["[console_scripts]", *lines, ""]).encode()


def _stem() -> str:
    project = _project()
    return f"{project['name']}-{project['version']}"


def _record(files: Files, own: str) -> bytes:
    """The list of a wheel's files, with their hashes and sizes; it is one itself."""
    lines: List[str] = []
    for name, text in files.items():
        digest = base64.urlsafe_b64encode(hashlib.sha256(text).digest()).rstrip(b"=").decode()
        lines.append(f"{name},sha256={digest},{len(text)}")
    return "\n".join([*lines, f"{own},,", ""]).encode()


def _write_wheel(folder: str, files: Files) -> str:
    """Writes a wheel that installs these files; its name."""
    info = f"{_stem()}.dist-info"
    tag = "Wheel-Version: 1.0\nGenerator: bivrang\nRoot-Is-Purelib: true\nTag: py3-none-any\n"
    files = {**files, f"{info}/METADATA": _metadata(), f"{info}/WHEEL": tag.encode()}
    files[f"{info}/entry_points.txt"] = _entry_points()
    files[f"{info}/RECORD"] = _record(files, f"{info}/RECORD")
    name = f"{_stem()}-py3-none-any.whl"
    with zipfile.ZipFile(pathlib.Path(folder, name), "w", zipfile.ZIP_DEFLATED) as wheel:
        for path, text in files.items():
            wheel.writestr(path, text)
    return name


def build_wheel(
    wheel_directory: str, config_settings: Any = None, metadata_directory: Any = None
) -> str:
    """PEP 517: writes the wheel; its name."""
    return _write_wheel(wheel_directory, _package())


def build_editable(
    wheel_directory: str, config_settings: Any = None, metadata_directory: Any = None
) -> str:
    """PEP 660: writes a wheel that leads to this folder; its name."""
    return _write_wheel(wheel_directory, {"bivrang.pth": f"{FOLDER}\n".encode()})


def build_sdist(sdist_directory: str, config_settings: Any = None) -> str:
    """PEP 517: writes what a wheel can be built from; its name."""
    own = {name: (FOLDER / name).read_bytes() for name in ("pyproject.toml", "build_backend.py")}
    name = f"{_stem()}.tar.gz"
    with tarfile.open(pathlib.Path(sdist_directory, name), "w:gz") as archive:
        for path, text in {**own, **_package(), "PKG-INFO": _metadata()}.items():
            member = tarfile.TarInfo(f"{_stem()}/{path}")
            member.size = len(text)
            archive.addfile(member, io.BytesIO(text))
    return name
