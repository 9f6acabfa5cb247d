"""Makes the wheel for pip with the standard library alone, so that no build tool has to be downloaded.

The wheel contains the libraries that capi/build.sh has made, and without them there is none.
"""

from __future__ import annotations

import re
import zipfile
from base64 import urlsafe_b64encode
from hashlib import sha256
from pathlib import Path

HERE = Path(__file__).resolve().parent
LIBRARY = HERE.parent / "capi" / "target" / "libdkap.so.1"
RECORDER = LIBRARY.with_name("libdkap_recorder.so.1")
LICENSES = ("LICENSE-MIT", "LICENSE-APACHE")


def _project(key: str) -> str:
    """Returns a text of the table [project] of pyproject.toml."""
    text = (HERE / "pyproject.toml").read_text(encoding="utf-8")
    return re.search(rf'^{key} = (?:\[{{ name = )?"(.*?)"', text, re.MULTILINE)[1]


def _record(name: str, content: bytes) -> str:
    digest = urlsafe_b64encode(sha256(content).digest()).rstrip(b"=").decode()
    return f"{name},sha256={digest},{len(content)}\n"


def _libraries() -> dict[str, bytes]:
    """Returns the bytes of each library by its name."""
    for path in (LIBRARY, RECORDER):
        if not path.exists():
            raise SystemExit(f"{path} is missing: run capi/build.sh first, which proves and builds it with the Rattle kit")
    return {path.name: path.read_bytes() for path in (LIBRARY, RECORDER)}


def _tag(libraries: dict[str, bytes]) -> str:
    """The tag of the platform: the greatest version of glibc of which a library needs a symbol, 2.17 at least."""
    needed = [int(minor) for library in libraries.values() for minor in re.findall(rb"GLIBC_2\.(\d+)", library)]
    return f"py3-none-manylinux_2_{max([17, *needed])}_x86_64"


def _metadata() -> bytes:
    keys = {"Name": "name", "Version": "version", "Summary": "description", "Author": "authors", "License": "license"}
    fields = {"Metadata-Version": "2.1", **{field: _project(key) for field, key in keys.items()}}
    fields["Requires-Python"] = _project("requires-python")
    lines = [f"{key}: {text}\n" for key, text in fields.items()] + [f"License-File: {name}\n" for name in LICENSES]
    lines += ["Description-Content-Type: text/markdown\n", "\n", (HERE / _project("readme")).read_text(encoding="utf-8")]
    return "".join(lines).encode()


def _write(wheel_directory: str, files: dict[str, bytes], tag: str) -> str:
    """Writes the wheel of these files, and returns its name."""
    name, version = _project("name"), _project("version")
    info = f"{name}-{version}.dist-info"
    files[f"{info}/METADATA"] = _metadata()
    for license_name in LICENSES:
        files[f"{info}/licenses/{license_name}"] = (HERE.parent / license_name).read_bytes()
    files[f"{info}/WHEEL"] = f"Wheel-Version: 1.0\nGenerator: backend\nRoot-Is-Purelib: false\nTag: {tag}\n".encode()
    record = "".join(_record(path, content) for path, content in files.items()) + f"{info}/RECORD,,\n"
    wheel = f"{name}-{version}-{tag}.whl"
    with zipfile.ZipFile(Path(wheel_directory) / wheel, "w") as archive:
        for path, content in {**files, f"{info}/RECORD": record.encode()}.items():
            archive.writestr(_entry(path), content, zipfile.ZIP_DEFLATED)
    return wheel


def _entry(path: str) -> zipfile.ZipInfo:
    """An entry of the wheel, with no time of its own, so that equal files make equal wheels."""
    entry = zipfile.ZipInfo(path, (1980, 1, 1, 0, 0, 0))
    entry.external_attr = 0o644 << 16
    return entry


def build_wheel(wheel_directory: str, config_settings: object = None, metadata_directory: object = None) -> str:
    """Makes the wheel (PEP 517), and returns the name of its file."""
    libraries, name = _libraries(), _project("name")
    files = {f"{name}/{path.name}": path.read_bytes() for path in sorted((HERE / name).glob("*.py"))}
    files[f"{name}/py.typed"] = b""
    files |= {f"{name}/{library}": content for library, content in libraries.items()}
    return _write(wheel_directory, files, _tag(libraries))


def build_editable(wheel_directory: str, config_settings: object = None, metadata_directory: object = None) -> str:
    """Makes a wheel that names this folder (PEP 660), for pip install -e, and returns the name of its file."""
    libraries, name = _libraries(), _project("name")
    return _write(wheel_directory, {f"__editable__.{name}.pth": f"{HERE}\n".encode()}, _tag(libraries))
