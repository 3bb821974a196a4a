"""Builds the wheel of this file's folder, as `pip install FOLDER` asks for it.

It needs neither a network nor another package. The wheel has a package of one module and the shared
object. (The hooks are those of PEP 517.)
"""
import base64
import hashlib
import io
import os
import re
import sysconfig
import tarfile
import zipfile

HERE = os.path.dirname(os.path.abspath(__file__))
NAME = "jellqupas"
# What the package has, and from which files; py.typed says that the hints are meant to be read.
MODULE = {
    f"{NAME}/__init__.py": f"{NAME}.py",
    f"{NAME}/libjellqupas.so.0": "libjellqupas.so.0",
    f"{NAME}/py.typed": None,
}
SOURCES = ("pyproject.toml", "jellqupas_build.py", f"{NAME}.py", "libjellqupas.so.0")
METADATA = """\
Metadata-Version: 2.1
Name: {name}
Version: {version}
Summary: A coordination service with ZooKeeper's data model, in the caller's thread
Requires-Python: >=3.8
"""
WHEEL = """\
Wheel-Version: 1.0
Generator: jellqupas_build
Root-Is-Purelib: false
Tag: {tag}
"""


def read(name):
    with open(f"{HERE}/{name}", "rb") as file:
        return file.read()


def version():
    """The module's version."""
    return re.search(r'^__version__ = "(.*)"$', read(f"{NAME}.py").decode(), re.M)[1]


def tag():
    """Any Python 3 on this machine's kind of processor and system."""
    return f"py3-none-{re.sub('[^a-zA-Z0-9]', '_', sysconfig.get_platform())}"


def described():
    """The files that describe the wheel."""
    folder = f"{NAME}-{version()}.dist-info"
    return {
        f"{folder}/METADATA": METADATA.format(name=NAME, version=version()).encode(),
        f"{folder}/WHEEL": WHEEL.format(tag=tag()).encode(),
    }


def record(files):
    """The list of a wheel's files, with their sums."""
    lines = []
    for name, content in files.items():
        digest = base64.urlsafe_b64encode(hashlib.sha256(content).digest()).decode().rstrip("=")
        lines.append(f"{name},sha256={digest},{len(content)}")
    own = f"{NAME}-{version()}.dist-info/RECORD"
    return own, "\n".join([*lines, f"{own},,", ""]).encode()


def get_requires_for_build_wheel(config_settings=None):
    return []


def get_requires_for_build_sdist(config_settings=None):
    return []


def prepare_metadata_for_build_wheel(metadata_directory, config_settings=None):
    for name, content in described().items():
        os.makedirs(os.path.dirname(f"{metadata_directory}/{name}"), exist_ok=True)
        with open(f"{metadata_directory}/{name}", "wb") as file:
            file.write(content)
    return f"{NAME}-{version()}.dist-info"


def build_wheel(wheel_directory, config_settings=None, metadata_directory=None):
    files = {name: read(source) if source else b"" for name, source in MODULE.items()}
    files.update(described())
    name, content = record(files)
    files[name] = content
    wheel = f"{NAME}-{version()}-{tag()}.whl"
    with zipfile.ZipFile(f"{wheel_directory}/{wheel}", "w", zipfile.ZIP_DEFLATED) as archive:
        for name, content in files.items():
            archive.writestr(name, content)
    return wheel


def build_sdist(sdist_directory, config_settings=None):
    top = f"{NAME}-{version()}"
    files = {name: read(name) for name in SOURCES}
    files["PKG-INFO"] = METADATA.format(name=NAME, version=version()).encode()
    with tarfile.open(f"{sdist_directory}/{top}.tar.gz", "w:gz") as archive:
        for name, content in files.items():
            member = tarfile.TarInfo(f"{top}/{name}")
            member.size = len(content)
            archive.addfile(member, io.BytesIO(content))
    return f"{top}.tar.gz"
