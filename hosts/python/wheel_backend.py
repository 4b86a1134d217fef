"""Makes the package's wheel, for pip: its modules and the station's library. The library is that of the folder which STATION_LIB_DIR names, or
else the project's own, which tools/library makes where it is not there. Nothing is taken from outside, setuptools neither."""

import base64
import hashlib
import os
import re
import subprocess
import sysconfig
import zipfile
from pathlib import Path

HERE = Path(__file__).resolve().parent
LIBRARY = "libstation.so"


def field(name: str) -> str:
    """A field of the project, as pyproject.toml has it."""
    found = re.search(rf'^{name} = "(.*)"$', (HERE / "pyproject.toml").read_text(), re.MULTILINE)
    if not found:
        raise ValueError(f"pyproject.toml has no {name}")
    return found[1]


def library() -> Path:
    """The library that goes into the wheel."""
    named = os.environ.get("STATION_LIB_DIR")
    if not named:
        tool, folder = HERE / "../../tools/library", HERE / "../../target/library"
        if not tool.is_file():
            raise FileNotFoundError(f"{tool} is not there: install the package within its project, or set STATION_LIB_DIR to a folder with {LIBRARY}")
        subprocess.run([str(tool), str(folder)], check=True)
        named = folder
    found = Path(named) / LIBRARY
    if not found.is_file():
        raise FileNotFoundError(f"there is no {found}")
    return found


def build_wheel(wheel_directory, config_settings=None, metadata_directory=None) -> str:
    name, version = field("name"), field("version")
    tag = f"py3-none-{re.sub('[-.]', '_', sysconfig.get_platform())}"
    about = f"{name}-{version}.dist-info"
    parts = {f"{name}/{module.name}": module.read_bytes() for module in sorted((HERE / name).glob("*.py"))}
    parts[f"{name}/{LIBRARY}"] = library().read_bytes()
    parts[f"{about}/METADATA"] = (
        f"Metadata-Version: 2.1\nName: {name}\nVersion: {version}\nSummary: {field('description')}\nRequires-Python: {field('requires-python')}\n"
    ).encode()
    parts[f"{about}/WHEEL"] = f"Wheel-Version: 1.0\nGenerator: {name}\nRoot-Is-Purelib: false\nTag: {tag}\n".encode()
    lines = []
    for place, content in parts.items():
        digest = base64.urlsafe_b64encode(hashlib.sha256(content).digest()).rstrip(b"=").decode()
        lines.append(f"{place},sha256={digest},{len(content)}")
    parts[f"{about}/RECORD"] = "\n".join([*lines, f"{about}/RECORD,,", ""]).encode()
    wheel = f"{name}-{version}-{tag}.whl"
    with zipfile.ZipFile(Path(wheel_directory) / wheel, "w", zipfile.ZIP_DEFLATED) as made:
        for place, content in parts.items():
            made.writestr(place, content)
    return wheel
