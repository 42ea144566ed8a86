"""What pip calls to install the package (PEP 517): it wants Python alone, so that it works without a network, and leaves
nothing beside the sources."""

import base64
import hashlib
import re
import tarfile
import zipfile
from pathlib import Path

HERE = Path(__file__).resolve().parent


def _project() -> dict[str, str]:
    """The texts of pyproject.toml by their names."""
    return dict(re.findall(r'^([\w-]+) = "(.*)"$', (HERE / "pyproject.toml").read_text(), re.M))


def _metadata(project: dict[str, str]) -> str:
    needed = re.search(r"^dependencies = \[(.*)\]$", (HERE / "pyproject.toml").read_text(), re.M)[1]
    lines = ["Metadata-Version: 2.1", f"Name: {project['name']}", f"Version: {project['version']}",
             f"Summary: {project['description']}", f"Requires-Python: {project['requires-python']}",
             *(f"Requires-Dist: {name}" for name in re.findall(r'"(.*?)"', needed))]
    return "\n".join([*lines, ""])


def _files() -> list[Path]:
    return sorted(path for path in (HERE / "ffi3").iterdir() if path.suffix in (".py", ".html", ".typed"))


def build_wheel(wheel_directory, config_settings=None, metadata_directory=None) -> str:
    """Writes the wheel into a folder, and answers its name."""
    project = _project()
    whole = f"{project['name']}-{project['version']}"
    held = {f"ffi3/{path.name}": path.read_bytes() for path in _files()}
    held |= {f"{whole}.dist-info/METADATA": _metadata(project).encode(),
             f"{whole}.dist-info/WHEEL": b"Wheel-Version: 1.0\nGenerator: ffi3\nRoot-Is-Purelib: true\n"
                                         b"Tag: py3-none-any\n"}
    record = f"{whole}.dist-info/RECORD"
    rows = [f"{name},sha256={base64.urlsafe_b64encode(hashlib.sha256(text).digest()).rstrip(b'=').decode()},{len(text)}"
            for name, text in held.items()]
    with zipfile.ZipFile(Path(wheel_directory, f"{whole}-py3-none-any.whl"), "w", zipfile.ZIP_DEFLATED) as made:
        for name, text in (held | {record: "\n".join([*rows, f"{record},,", ""]).encode()}).items():
            made.writestr(name, text)
    return f"{whole}-py3-none-any.whl"


def build_sdist(sdist_directory, config_settings=None) -> str:
    """Writes the sources into a folder as one archive, and answers its name."""
    project = _project()
    whole = f"{project['name']}-{project['version']}"
    with tarfile.open(Path(sdist_directory, f"{whole}.tar.gz"), "w:gz") as made:
        for path in [HERE / "pyproject.toml", HERE / "backend.py", *_files()]:
            made.add(path, f"{whole}/{path.relative_to(HERE)}")
    return f"{whole}.tar.gz"
