"""Builds the package for `pip install`, by the standard library alone, so that no network is needed.

`pip` calls these functions as `pyproject.toml` says. A wheel has the modules, `py.typed`, and three
files that tell what it is; the same modules make the same bytes.
"""
import base64
import hashlib
import io
import tarfile
import tomllib
import zipfile
from pathlib import Path

HERE = Path(__file__).resolve().parent
# The date that each file has.
DATE = (2020, 1, 1, 0, 0, 0)


def project():
    """What `pyproject.toml` tells of the project."""
    return tomllib.loads((HERE / "pyproject.toml").read_text())["project"]


def modules():
    """The files of the package, by their names in a wheel."""
    names = sorted(it for it in (HERE / "beemodel").rglob("*") if it.suffix in (".py", ".sh", ".typed"))
    return {str(it.relative_to(HERE)): it.read_bytes() for it in names}


def metadata():
    """What is told of the project in a wheel."""
    it = project()
    lines = ["Metadata-Version: 2.1", f"Name: {it['name']}", f"Version: {it['version']}"]
    lines += [f"Summary: {it['description']}", f"Requires-Python: {it['requires-python']}"]
    return "\n".join(lines) + "\n"


def record(files, name):
    """The line of each file: its name, its hash and its size."""
    lines = []
    for path, data in files.items():
        told = base64.urlsafe_b64encode(hashlib.sha256(data).digest()).rstrip(b"=").decode()
        lines.append(f"{path},sha256={told},{len(data)}")
    return "\n".join([*lines, f"{name},,"]) + "\n"


def write_wheel(folder, files):
    """Writes a wheel with these files. The answer is its name."""
    it = project()
    base = f"{it['name']}-{it['version']}"
    about = f"{base}.dist-info"
    wheel = "Wheel-Version: 1.0\nGenerator: wheels.py\nRoot-Is-Purelib: true\nTag: py3-none-any\n"
    files = {**files, f"{about}/METADATA": metadata().encode(), f"{about}/WHEEL": wheel.encode()}
    files[f"{about}/RECORD"] = record(files, f"{about}/RECORD").encode()
    name = f"{base}-py3-none-any.whl"
    with zipfile.ZipFile(Path(folder, name), "w", zipfile.ZIP_DEFLATED) as out:
        for path, data in files.items():
            told = zipfile.ZipInfo(path, DATE)
            told.external_attr = 0o644 << 16
            out.writestr(told, data, zipfile.ZIP_DEFLATED)
    return name


# What pip calls.


def build_wheel(wheel_directory, config_settings=None, metadata_directory=None):
    """Writes the wheel of the package."""
    return write_wheel(wheel_directory, modules())


def build_editable(wheel_directory, config_settings=None, metadata_directory=None):
    """Writes a wheel that names this folder, for `pip install -e`."""
    return write_wheel(wheel_directory, {"beemodel.pth": f"{HERE}\n".encode()})


def build_sdist(sdist_directory, config_settings=None):
    """Writes the sources from which a wheel is built."""
    it = project()
    base = f"{it['name']}-{it['version']}"
    files = {path: (HERE / path).read_bytes() for path in ("pyproject.toml", "wheels.py")}
    files = {**files, **modules(), "PKG-INFO": metadata().encode()}
    with tarfile.open(Path(sdist_directory, f"{base}.tar.gz"), "w:gz", format=tarfile.PAX_FORMAT) as out:
        for path, data in files.items():
            told = tarfile.TarInfo(f"{base}/{path}")
            told.size = len(data)
            out.addfile(told, io.BytesIO(data))
    return f"{base}.tar.gz"
