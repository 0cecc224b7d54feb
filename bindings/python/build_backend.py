"""Makes the wheel of tink_proved. So `pip install` of this folder needs no network, no other package, and writes nothing here."""

import base64
import hashlib
import re
import zipfile
from pathlib import Path

HERE = Path(__file__).resolve().parent


def _project(name):
    return re.search(rf'^{name} = "(.*)"$', (HERE / "pyproject.toml").read_text(), re.M).group(1)


def _metadata():
    lines = ["Metadata-Version: 2.1", f"Name: {_project('name')}", f"Version: {_project('version')}"]
    lines += [f"Summary: {_project('description')}", f"Requires-Python: {_project('requires-python')}", "License: Apache-2.0"]
    readme = (HERE / "README.md").read_text(encoding="utf-8")
    return "\n".join(lines) + f"\nDescription-Content-Type: text/markdown\n\n{readme}"


def _wheel(folder, files):
    package = f"tink_proved-{_project('version')}"
    info, wheel = f"{package}.dist-info", f"{package}-py3-none-any.whl"
    files[f"{info}/METADATA"] = _metadata().encode()
    files[f"{info}/WHEEL"] = b"Wheel-Version: 1.0\nGenerator: tink_proved\nRoot-Is-Purelib: true\nTag: py3-none-any\n"
    record = ""
    with zipfile.ZipFile(Path(folder) / wheel, "w", zipfile.ZIP_DEFLATED) as made:
        for name, data in files.items():
            made.writestr(name, data)
            digest = base64.urlsafe_b64encode(hashlib.sha256(data).digest()).rstrip(b"=").decode()
            record += f"{name},sha256={digest},{len(data)}\n"
        made.writestr(f"{info}/RECORD", f"{record}{info}/RECORD,,\n")
    return wheel


def build_wheel(wheel_directory, config_settings=None, metadata_directory=None):
    """The wheel of the package."""
    sources = [path for path in sorted((HERE / "tink_proved").iterdir()) if path.suffix in (".py", ".typed")]
    return _wheel(wheel_directory, {f"tink_proved/{path.name}": path.read_bytes() for path in sources})


def build_editable(wheel_directory, config_settings=None, metadata_directory=None):
    """The wheel of `pip install -e`, which points to this folder."""
    return _wheel(wheel_directory, {"tink_proved.pth": f"{HERE}\n".encode()})
