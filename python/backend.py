"""Makes the package's wheel, for pip (PEP 517), with nothing but the standard library.

An own backend, so that pip installs without a network: it would download any other.
"""

from __future__ import annotations

import base64
import hashlib
import re
import sysconfig
import zipfile
from pathlib import Path

_ROOT = Path(__file__).resolve().parent
_PACKAGE = _ROOT / "reference_engine"
_NATIVE = ("libreference_engine.so", "version")


def _files() -> list[Path]:
    native = [_PACKAGE / "native" / name for name in _NATIVE]
    for path in native:
        if not path.is_file():
            raise RuntimeError(f"{path} is missing: run python/build in the checkout first")
    return [*sorted(_PACKAGE.rglob("*.py")), _PACKAGE / "py.typed", *native]


def _version() -> str:
    return (_PACKAGE / "native" / "version").read_text(encoding="ascii").strip()


def _project() -> str:
    return (_ROOT / "pyproject.toml").read_text(encoding="utf-8")


def _stated() -> dict[str, str]:
    """What pyproject.toml says in lines of a name and a text; Python 3.10 does not read TOML."""
    return dict(re.findall(r'^([a-z-]+) = "(.*)"$', _project(), re.MULTILINE))


def _metadata() -> str:
    stated = _stated()
    classifiers = re.findall(r'^    "(.*)",$', _project(), re.MULTILINE)
    return (
        f"Metadata-Version: 2.1\nName: {stated['name']}\nVersion: {_version()}\n"
        f"Summary: {stated['description']}\nRequires-Python: {stated['requires-python']}\n"
        + "".join(f"Classifier: {each}\n" for each in classifiers)
        + "Description-Content-Type: text/markdown\n\n"
        + (_ROOT / stated["readme"]).read_text(encoding="utf-8")
    )


def _scripts() -> str:
    return f"[console_scripts]\nreference-engine = {_stated()['reference-engine']}\n"


def _mode(path: Path) -> int:
    """As all may read and run it, whatever the mask was: the same files make the same wheel."""
    return 0o100755 if path.stat().st_mode & 0o100 else 0o100644


def _record(name: str, content: bytes) -> str:
    digest = base64.urlsafe_b64encode(hashlib.sha256(content).digest()).rstrip(b"=").decode()
    return f"{name},sha256={digest},{len(content)}\n"


def build_wheel(
    wheel_directory: str,
    config_settings: object = None,
    metadata_directory: str | None = None,
) -> str:
    """Writes the wheel into the folder and gives its name. Raises RuntimeError if not built."""
    files = _files()
    # The shared object is for this platform, and for any Python: ctypes loads it.
    tag = "py3-none-" + re.sub(r"[-.]", "_", sysconfig.get_platform())
    stem = f"reference_engine-{_version()}"
    about = f"{stem}.dist-info"
    made = f"Wheel-Version: 1.0\nGenerator: backend\nRoot-Is-Purelib: false\nTag: {tag}\n"
    entries = [
        (path.relative_to(_ROOT).as_posix(), _mode(path), path.read_bytes())
        for path in files
    ]
    texts = {"METADATA": _metadata(), "WHEEL": made, "entry_points.txt": _scripts()}
    entries += [(f"{about}/{name}", 0o100644, text.encode()) for name, text in texts.items()]
    record = "".join(_record(name, content) for name, _, content in entries)
    entries.append((f"{about}/RECORD", 0o100644, f"{record}{about}/RECORD,,\n".encode()))
    with zipfile.ZipFile(Path(wheel_directory, f"{stem}-{tag}.whl"), "w") as wheel:
        for name, mode, content in entries:
            entry = zipfile.ZipInfo(name)
            entry.external_attr = mode << 16
            wheel.writestr(entry, content, zipfile.ZIP_DEFLATED)
    return f"{stem}-{tag}.whl"


def build_sdist(sdist_directory: str, config_settings: object = None) -> str:
    """Refused: the library is proved and built in the checkout."""
    raise RuntimeError("there is no source distribution: install from the checkout")
