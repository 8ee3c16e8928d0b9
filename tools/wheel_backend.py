"""Builds the Python package for pip, with the standard library alone: `pip install .` needs no network.

The hooks are those of PEP 517 and PEP 660, for the one package of this tree. pyproject.toml has the names, and python/polcert/version.py
the version. The same files give the same wheel.
"""
import hashlib
import re
import tarfile
from base64 import urlsafe_b64encode
from io import BytesIO
from pathlib import Path
from typing import Any, Dict, List, Optional
from zipfile import ZIP_DEFLATED, ZipFile, ZipInfo

TOP = Path(__file__).resolve().parents[1]
TAG = "py3-none-any"
WHEEL = f"Wheel-Version: 1.0\nGenerator: polcert\nRoot-Is-Purelib: true\nTag: {TAG}\n"
# What an archive of the sources has.
SOURCES = ("pyproject.toml", "LICENSE", "README.md", "tools/wheel_backend.py", "python/polcert/**/*.py", "python/polcert/py.typed")


def section(name: str) -> Dict[str, str]:
    """The keys of a section of pyproject.toml whose values are one line, and what is written there. (Python 3.9 has no reader of TOML.)"""
    text = (TOP / "pyproject.toml").read_text(encoding="utf-8")
    lines = text.partition(f"\n[{name}]\n")[2].partition("\n[")[0].splitlines()
    return dict(line.split(" = ", 1) for line in lines if " = " in line)


def words(value: str) -> List[str]:
    """The strings of a value."""
    return re.findall(r'"([^"]*)"', value)


def version() -> str:
    return words((TOP / "python/polcert/version.py").read_text(encoding="utf-8"))[-1]


def stem() -> str:
    return f"polcert-{version()}"


def metadata() -> str:
    """What METADATA and PKG-INFO have."""
    project = section("project")
    lines = [f"{key}: {words(project[name])[0]}" for key, name in (
        ("Name", "name"), ("Summary", "description"), ("Requires-Python", "requires-python"), ("License", "license"))]
    for extra, needs in section("project.optional-dependencies").items():
        lines += [f"Provides-Extra: {extra}", *(f'Requires-Dist: {need}; extra == "{extra}"' for need in words(needs))]
    return "\n".join(["Metadata-Version: 2.1", f"Version: {version()}", *lines, ""])


def entry_points() -> str:
    scripts = (f"{name} = {words(target)[0]}\n" for name, target in section("project.scripts").items())
    return "[console_scripts]\n" + "".join(scripts)


def package() -> Dict[str, bytes]:
    """The files of the package, from the folder python."""
    found = sorted(path for pattern in SOURCES if "polcert/" in pattern for path in TOP.glob(pattern))
    return {path.relative_to(TOP / "python").as_posix(): path.read_bytes() for path in found}


def write_wheel(folder: str, files: Dict[str, bytes]) -> str:
    """Writes a wheel of these files, with what describes it, and returns its name."""
    about = f"{stem()}.dist-info"
    texts = {"METADATA": metadata(), "WHEEL": WHEEL, "entry_points.txt": entry_points()}
    files = {**files, **{f"{about}/{name}": text.encode() for name, text in texts.items()}}
    files[f"{about}/LICENSE"] = (TOP / "LICENSE").read_bytes()
    sums = ((name, urlsafe_b64encode(hashlib.sha256(content).digest()).decode().rstrip("=")) for name, content in files.items())
    record = [f"{name},sha256={value},{len(files[name])}" for name, value in sums] + [f"{about}/RECORD,,", ""]
    files[f"{about}/RECORD"] = "\n".join(record).encode()
    with ZipFile(Path(folder) / f"{stem()}-{TAG}.whl", "w", ZIP_DEFLATED) as wheel:
        for name, content in files.items():
            entry = ZipInfo(name)
            entry.external_attr = 0o644 << 16
            wheel.writestr(entry, content, ZIP_DEFLATED)
    return f"{stem()}-{TAG}.whl"


def build_wheel(wheel_directory: str, config_settings: Optional[Dict[str, Any]] = None, metadata_directory: Optional[str] = None) -> str:
    return write_wheel(wheel_directory, package())


def build_editable(wheel_directory: str, config_settings: Optional[Dict[str, Any]] = None, metadata_directory: Optional[str] = None) -> str:
    return write_wheel(wheel_directory, {"polcert.pth": f"{TOP / 'python'}\n".encode()})


def build_sdist(sdist_directory: str, config_settings: Optional[Dict[str, Any]] = None) -> str:
    files = {path.relative_to(TOP).as_posix(): path.read_bytes() for pattern in SOURCES for path in TOP.glob(pattern)}
    with tarfile.open(Path(sdist_directory) / f"{stem()}.tar.gz", "w:gz") as archive:
        for name, content in sorted({**files, "PKG-INFO": metadata().encode()}.items()):
            entry = tarfile.TarInfo(f"{stem()}/{name}")
            entry.size = len(content)
            archive.addfile(entry, BytesIO(content))
    return f"{stem()}.tar.gz"
