"""Builds the package's wheel, with the library in it. It needs neither setuptools nor wheel.

The library is libgravitar.so of the folder GRAVITAR_LIB, or else of this folder.
"""
import base64
import hashlib
import os
import pathlib
import re
import sysconfig
import zipfile

HERE = pathlib.Path(__file__).resolve().parent


def _project():
    """The values of pyproject.toml that are plain strings."""
    text = (HERE / "pyproject.toml").read_text()
    return dict(re.findall(r'^([a-z-]+) = "(.*)"$', text, re.MULTILINE))


def _version():
    """The package's version, which is that of the calls."""
    return re.search(r"^_VERSION = (\d+)$", (HERE / "gravitar" / "_calls.py").read_text(), re.MULTILINE)[1]


def _library():
    library = pathlib.Path(os.environ.get("GRAVITAR_LIB") or HERE) / "libgravitar.so"
    if not library.is_file():
        raise SystemExit(f"no {library}: GRAVITAR_LIB names its folder, which tools/quick.sh --lib makes")
    return library.read_bytes()


def _row(name, content):
    """A line of RECORD."""
    digest = base64.urlsafe_b64encode(hashlib.sha256(content).digest()).decode().rstrip("=")
    return f"{name},sha256={digest},{len(content)}\n"


def build_wheel(wheel_directory, config_settings=None, metadata_directory=None):
    project = _project()
    name, version = project["name"], _version()
    tag = "py3-none-" + re.sub(r"[-.]", "_", sysconfig.get_platform())
    info = f"{name}-{version}.dist-info"
    files = {f"{name}/{path.name}": path.read_bytes() for path in (HERE / name).glob("*.py")}
    files[f"{name}/libgravitar.so"] = _library()
    files[f"{info}/METADATA"] = (
        f"Metadata-Version: 2.1\nName: {name}\nVersion: {version}\nSummary: {project['description']}\n"
        f"Requires-Python: {project['requires-python']}\n"
    ).encode()
    files[f"{info}/WHEEL"] = f"Wheel-Version: 1.0\nGenerator: gravitar\nRoot-Is-Purelib: false\nTag: {tag}\n".encode()
    record = "".join(_row(*file) for file in files.items()) + f"{info}/RECORD,,\n"
    wheel = f"{name}-{version}-{tag}.whl"
    with zipfile.ZipFile(pathlib.Path(wheel_directory) / wheel, "w", zipfile.ZIP_DEFLATED) as archive:
        for file, content in {**files, f"{info}/RECORD": record.encode()}.items():
            archive.writestr(file, content)
    return wheel


def build_sdist(sdist_directory, config_settings=None):
    raise NotImplementedError("the package is built from its folder in the repository")
