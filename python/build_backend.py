"""Makes wheels of the Python package: its modules, and the shared library for C. It requires only the standard library of Python. The same
files give the same wheel, byte for byte.

pip calls the functions without an underscore that PEP 517 names, and `python/build_wheel` calls `make_wheel`."""

import base64
import hashlib
import os
import re
import signal
import subprocess
import sys
import tempfile
import zipfile
from pathlib import Path

HERE = Path(__file__).resolve().parent
BUILD = HERE.parent / "build"
PACKAGE = HERE / "tourkit"
LIBRARY_VARIABLE = "TOURKIT_LIBRARY_DIR"
TAG = "py3-none-linux_x86_64"
METADATA = """\
Metadata-Version: 2.1
Name: tourkit
Version: {version}
Summary: Symmetric travelling salesman problems and capacitated vehicle routing problems: checks, near lists, tours, routes and pictures
Requires-Python: >=3.9
Classifier: Operating System :: POSIX :: Linux
Classifier: Typing :: Typed
"""
WHEEL = f"""\
Wheel-Version: 1.0
Generator: python/build_wheel
Root-Is-Purelib: false
Tag: {TAG}
"""
SHARED_OBJECT = "tourkit/libtourkit.so"


class UnsupportedOperation(Exception):
    """Reports to pip that there is no such distribution."""


def build_wheel(wheel_directory, config_settings=None, metadata_directory=None):
    """Makes the wheel for pip, with the library in the directory that TOURKIT_LIBRARY_DIR names. Without this variable, proves and builds
    the library first. Returns the name of the wheel."""
    library = os.environ.get(LIBRARY_VARIABLE)
    return (make_wheel(Path(library), Path(wheel_directory)) if library else make_proved_wheel(Path(wheel_directory))).name


def build_sdist(sdist_directory, config_settings=None):
    """Reports that there is no source distribution: the package alone cannot build its library."""
    raise UnsupportedOperation("install tourkit from a clone of its repository, or make a wheel there")


def prepare_metadata_for_build_wheel(metadata_directory, config_settings=None):
    """Writes the metadata of the wheel, which pip reads before it makes the wheel. Returns the name of their directory."""
    information = list_information(package_version())
    for name, content in information.items():
        file = Path(metadata_directory) / name
        file.parent.mkdir(exist_ok=True)
        file.write_bytes(content)
    return file.parent.name


def make_proved_wheel(folder):
    """Proves and builds the library, and writes a wheel with it to a directory. Returns the path of the wheel."""
    with tempfile.TemporaryDirectory() as library:
        build_library(library)
        return make_wheel(Path(library), folder)


def build_library(folder):
    """Builds the library in a directory. A signal that ends this process also ends the build."""
    if not BUILD.exists():
        sys.exit(f"tourkit: there is no {BUILD}, so {LIBRARY_VARIABLE} must name a directory that ./tourkit --library has made")
    build = subprocess.Popen([BUILD, "--library", folder])
    for number in (signal.SIGINT, signal.SIGTERM, signal.SIGHUP):
        signal.signal(number, lambda number, _: build.send_signal(number))
    if build.wait():
        sys.exit(build.returncode)


def make_wheel(library, folder):
    """Writes a wheel with the library of one directory to another directory. Returns the path of the wheel."""
    version = package_version()
    check_library(library, version)
    wheel = folder / f"tourkit-{version}-{TAG}.whl"
    folder.mkdir(parents=True, exist_ok=True)
    write_wheel(wheel, list_files(library, version))
    print(f"tourkit: made {wheel}", file=sys.stderr)
    return wheel


def package_version():
    """The version of the package."""
    return re.search(r'(?m)^__version__ = "(.+)"$', (PACKAGE / "__init__.py").read_text())[1]


def check_library(library, version):
    """Checks that the library has the version of the package."""
    found = re.search(r"(?m)^Version: (.+)$", (library / "tourkit.pc").read_text())[1]
    if found != version:
        sys.exit(f"tourkit: the library in {library} is of version {found}, but the package is of version {version}")


def list_information(version):
    """The files of the wheel that describe it, except for the list of all files."""
    folder = f"tourkit-{version}.dist-info"
    return {f"{folder}/METADATA": METADATA.format(version=version).encode(), f"{folder}/WHEEL": WHEEL.encode()}


def list_files(library, version):
    """The contents of the wheel: the bytes of each file, by its name there. The list of all files with their checksums comes last."""
    modules = sorted([*PACKAGE.glob("*.py"), PACKAGE / "py.typed"])
    files = {f"tourkit/{module.name}": module.read_bytes() for module in modules}
    files[SHARED_OBJECT] = (library / "libtourkit.so").read_bytes()
    files.update(list_information(version))
    record = f"tourkit-{version}.dist-info/RECORD"
    lines = [f"{name},{digest_of(content)},{len(content)}\n" for name, content in files.items()]
    files[record] = "".join([*lines, f"{record},,\n"]).encode()
    return files


def digest_of(content):
    """The checksum of a file, in the form that wheels use."""
    return "sha256=" + base64.urlsafe_b64encode(hashlib.sha256(content).digest()).rstrip(b"=").decode()


def write_wheel(path, files):
    """Packs the files. No dates are stored, so the wheel depends only on the files."""
    with zipfile.ZipFile(path, "w", zipfile.ZIP_DEFLATED) as wheel:
        for name, content in files.items():
            entry = zipfile.ZipInfo(name)
            entry.external_attr = (0o100755 if name == SHARED_OBJECT else 0o100644) << 16
            wheel.writestr(entry, content, zipfile.ZIP_DEFLATED)
