"""Makes the wheel of pest_meta.py, as pip asks for it by pyproject.toml: the module as a package, that its types are for
checkers, and the shared library, from the folder that PEST_META_LIB names or from ../lib. The same files make the same bytes.
"""
import base64
import hashlib
import os
import re
import zipfile
from typing import Any, Dict, List, Optional

_HERE = os.path.dirname(os.path.realpath(__file__))
_LIBRARY = "libpest_meta_c.so.1"
_TAG = "py3-none-manylinux_2_17_x86_64"


def _read(path: str) -> bytes:
    with open(path, "rb") as file:
        return file.read()


def _value(name: str) -> str:
    """A text of the project in pyproject.toml."""
    found = re.search(rf'(?m)^{name} = "(.*)"$', _read(f"{_HERE}/pyproject.toml").decode())
    assert found, f"pyproject.toml has no {name}"
    return found[1]


def _info() -> Dict[str, bytes]:
    """The files that say what the wheel is, by their names in its folder of them."""
    metadata = [
        "Metadata-Version: 2.1",
        f"Name: {_value('name')}",
        f"Version: {_value('version')}",
        f"Summary: {_value('description')}",
        f"Requires-Python: {_value('requires-python')}",
        "License: MIT OR Apache-2.0",
        "Description-Content-Type: text/markdown",
        "",
        _read(f"{_HERE}/README.md").decode(),
    ]
    wheel = ["Wheel-Version: 1.0", "Generator: kingorewa", "Root-Is-Purelib: false", f"Tag: {_TAG}", ""]
    return {"METADATA": "\n".join(metadata).encode(), "WHEEL": "\n".join(wheel).encode()}


def _line(name: str, content: bytes) -> str:
    """The line that RECORD has for a file."""
    digest = base64.urlsafe_b64encode(hashlib.sha256(content).digest()).rstrip(b"=").decode()
    return f"{name},sha256={digest},{len(content)}\n"


def build_wheel(wheel_directory: str, config_settings: Any = None, metadata_directory: Optional[str] = None) -> str:
    """Writes the wheel to a folder, and returns its name. Raises FileNotFoundError where the library is missing."""
    name = f"{_value('name').replace('-', '_')}-{_value('version')}"
    folder = os.environ.get("PEST_META_LIB") or f"{_HERE}/../lib"
    files = {
        "pest_meta/__init__.py": _read(f"{_HERE}/pest_meta.py"),
        "pest_meta/py.typed": b"",
        f"pest_meta/{_LIBRARY}": _read(f"{folder}/{_LIBRARY}"),
        **{f"{name}.dist-info/{file}": content for file, content in _info().items()},
    }
    record = f"{name}.dist-info/RECORD"
    lines = "".join(_line(file, content) for file, content in files.items())
    files[record] = f"{lines}{record},,\n".encode()
    with zipfile.ZipFile(f"{wheel_directory}/{name}-{_TAG}.whl", "w", zipfile.ZIP_DEFLATED) as wheel:
        for file, content in files.items():
            entry = zipfile.ZipInfo(file)
            entry.external_attr = 0o644 << 16
            entry.compress_type = zipfile.ZIP_DEFLATED
            wheel.writestr(entry, content)
    return f"{name}-{_TAG}.whl"


def get_requires_for_build_wheel(config_settings: Any = None) -> List[str]:
    """Nothing is needed."""
    return []
