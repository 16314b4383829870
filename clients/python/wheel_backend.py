"""Makes a wheel of the package for pip, by the standard library alone.

pip calls these functions (PEP 517). A fresh environment of Debian has pip and setuptools, and not the module that setuptools
makes wheels by, so without this the package could not be installed there without a network.
"""

import base64
import hashlib
import io
import pathlib
import re
import tarfile
import zipfile

HERE = pathlib.Path(__file__).resolve().parent
PACKAGE = HERE / "src/nipakeel"
# The first moment that a file in a wheel may have, so that the same sources make the same bytes.
MOMENT = 1980, 1, 1, 0, 0, 0


def field(name):
    """A field of pyproject.toml, which Python 3.9 can't read by itself."""
    return re.search(rf'^{name} = "([^"]*)"$', (HERE / "pyproject.toml").read_text(), re.M)[1]


NAME, VERSION = field("name"), field("version")
INFO = f"{NAME}-{VERSION}.dist-info"
METADATA = f"""Metadata-Version: 2.1
Name: {NAME}
Version: {VERSION}
Summary: {field("description")}
Requires-Python: {field("requires-python")}
Description-Content-Type: text/markdown

"""
WHEEL = "Wheel-Version: 1.0\nGenerator: wheel_backend\nRoot-Is-Purelib: true\nTag: py3-none-any\n"


def sources():
    return [it for it in sorted(PACKAGE.iterdir()) if it.suffix in (".py", ".typed")]


def record(files):
    """The list of the files with their sums, by which pip takes the package away again."""
    lines = []
    for name, held in files.items():
        digest = base64.urlsafe_b64encode(hashlib.sha256(held).digest()).rstrip(b"=").decode()
        lines.append(f"{name},sha256={digest},{len(held)}")
    return "\n".join([*lines, f"{INFO}/RECORD,,", ""]).encode()


def write(folder, files):
    """Writes a wheel with these files, by their names in it, and returns its name."""
    about = {f"{INFO}/METADATA": METADATA.encode() + (HERE / "README.md").read_bytes(), f"{INFO}/WHEEL": WHEEL.encode()}
    files = {**files, **about}
    files[f"{INFO}/RECORD"] = record(files)
    made = f"{NAME}-{VERSION}-py3-none-any.whl"
    with zipfile.ZipFile(pathlib.Path(folder, made), "w", zipfile.ZIP_DEFLATED) as wheel:
        for name, held in files.items():
            about = zipfile.ZipInfo(name, MOMENT)
            about.external_attr = 0o644 << 16
            about.compress_type = zipfile.ZIP_DEFLATED
            wheel.writestr(about, held)
    return made


def build_wheel(wheel_directory, config_settings=None, metadata_directory=None):
    return write(wheel_directory, {f"{NAME}/{it.name}": it.read_bytes() for it in sources()})


def build_editable(wheel_directory, config_settings=None, metadata_directory=None):
    """A wheel that leads to the sources here, for `pip install --editable`."""
    return write(wheel_directory, {f"{NAME}.pth": f"{PACKAGE.parent}\n".encode()})


def build_sdist(sdist_directory, config_settings=None):
    top = f"{NAME}-{VERSION}"
    made = f"{top}.tar.gz"
    names = ["pyproject.toml", "wheel_backend.py", "README.md"]
    names += [str(it.relative_to(HERE)) for it in sources()]
    files = {f"{top}/{it}": (HERE / it).read_bytes() for it in names}
    files[f"{top}/PKG-INFO"] = METADATA.encode()
    with tarfile.open(pathlib.Path(sdist_directory, made), "w:gz", format=tarfile.PAX_FORMAT) as archive:
        for name, held in files.items():
            about = tarfile.TarInfo(name)
            about.size = len(held)
            archive.addfile(about, io.BytesIO(held))
    return made
