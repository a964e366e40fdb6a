"""Makes the wheel of the module with the shared library in it: what pip calls (PEP 517), by Python's own library alone.

The library is target/bindings/libparvusek.so of the repository, which bindings/build makes. It is for one kind of
machine, and so is the wheel.
"""

import base64
import hashlib
import re
import subprocess
import sysconfig
import zipfile
from pathlib import Path
from typing import Any, Iterator, Optional

HERE = Path(__file__).resolve().parent
BUILD = HERE.parent / "build"
LIBRARY = HERE.parents[1] / "target" / "bindings" / "libparvusek.so"

METADATA = """Metadata-Version: 2.1
Name: parvusek
Version: {version}
Summary: A proved valuation engine for pensions: improvements, factors, rates, survivorship, expectations, annuities
Requires-Python: >=3.9
Provides-Extra: arrays
Requires-Dist: numpy; extra == "arrays"
Requires-Dist: pandas; extra == "arrays"
"""

WHEEL = """Wheel-Version: 1.0
Generator: parvusek
Root-Is-Purelib: false
Tag: {tag}
"""

ENTRY_POINTS = """[console_scripts]
parvusek = parvusek.__main__:main
"""


def get_requires_for_build_wheel(config_settings: Optional[dict[str, Any]] = None) -> list[str]:
    return []


def build_wheel(wheel_directory: str, config_settings: Optional[dict[str, Any]] = None,
                metadata_directory: Optional[str] = None) -> str:
    """Writes the wheel into a folder and hands back its name."""
    version = _version()
    tag = "py3-none-" + re.sub(r"\W", "_", sysconfig.get_platform())
    name = f"parvusek-{version}-{tag}.whl"
    record = f"parvusek-{version}.dist-info/RECORD"
    lines = []
    with zipfile.ZipFile(Path(wheel_directory, name), "w", zipfile.ZIP_DEFLATED) as wheel:
        for path, content in _files(version, tag):
            _put(wheel, path, content)
            check = base64.urlsafe_b64encode(hashlib.sha256(content).digest()).rstrip(b"=").decode()
            lines.append(f"{path},sha256={check},{len(content)}\n")
        _put(wheel, record, "".join(lines + [f"{record},,\n"]).encode())
    return name


def build_sdist(sdist_directory: str, config_settings: Optional[dict[str, Any]] = None) -> str:
    raise RuntimeError("the sources of parvusek are its repository, in which the library is proved and built; make a "
                       "wheel, by 'pip wheel bindings/python'")


def _files(version: str, tag: str) -> Iterator[tuple[str, bytes]]:
    """What the wheel holds: the module, the library, and what pip wants to know."""
    library = _library()
    for path in sorted([*HERE.glob("parvusek/*.py"), HERE / "parvusek" / "py.typed"]):
        yield f"parvusek/{path.name}", path.read_bytes()
    yield f"parvusek/{LIBRARY.name}", library
    information = f"parvusek-{version}.dist-info"
    yield f"{information}/METADATA", METADATA.format(version=version).encode()
    yield f"{information}/WHEEL", WHEEL.format(tag=tag).encode()
    yield f"{information}/entry_points.txt", ENTRY_POINTS.encode()


def _put(wheel: zipfile.ZipFile, path: str, content: bytes) -> None:
    """With no time of its own, so that the same sources make the same wheel."""
    entry = zipfile.ZipInfo(path)
    entry.external_attr = 0o644 << 16
    entry.compress_type = zipfile.ZIP_DEFLATED
    wheel.writestr(entry, content)


def _version() -> str:
    found = re.search(r'^__version__ = "(.*)"$', (HERE / "parvusek" / "_version.py").read_text(), re.MULTILINE)
    assert found is not None, "the module has no version"
    return found.group(1)


def _library() -> bytes:
    if not BUILD.is_file():
        raise RuntimeError(f"there is no {BUILD}: a wheel is made in the repository, where the library is built")
    subprocess.run([str(BUILD)], check=True)
    return LIBRARY.read_bytes()
