"""Makes the package (PEP 517, PEP 660), and fetches nothing.

A wheel holds the shared library. So does a source distribution, because the toolchain that builds the library is not everywhere. An
editable installation holds no library: the package takes the one of bindings/out, or the one that LUVAZHIMBA_LIB names as it runs.
"""
import base64
import gzip
import hashlib
import io
import os
import pathlib
import sysconfig
import tarfile
import zipfile

HERE = pathlib.Path(__file__).resolve().parent
FIELDS = dict(line.split(" = ", 1) for line in (HERE / "pyproject.toml").read_text(encoding="utf-8").splitlines() if " = " in line)
NAME, VERSION, SUMMARY, PYTHON = (FIELDS[it].strip('"') for it in ("name", "version", "description", "requires-python"))
METADATA = f"Metadata-Version: 2.1\nName: {NAME}\nVersion: {VERSION}\nSummary: {SUMMARY}\nRequires-Python: {PYTHON}\n".encode()
TAG = "py3-none-" + sysconfig.get_platform().replace("-", "_").replace(".", "_")
INFO = f"{NAME}-{VERSION}.dist-info"


def _library():
    """Returns the library: the one that LUVAZHIMBA_LIB names, the one of a source distribution, or what bindings/build.sh made."""
    packaged, built = HERE / NAME / "libluvazhimba.so", HERE.parent / "out" / "libluvazhimba.so"
    library = pathlib.Path(os.environ.get("LUVAZHIMBA_LIB") or (packaged if packaged.is_file() else built))
    if not library.is_file():
        raise SystemExit(f"{library} is not there: bindings/build.sh makes it, and LUVAZHIMBA_LIB names another one")
    return library.read_bytes()


def _sources():
    """Returns the files of the package, but for the library."""
    return {f"{NAME}/{it.name}": it.read_bytes() for it in sorted((HERE / NAME).iterdir()) if it.suffix == ".py" or it.name == "py.typed"}


def _digest(data):
    return base64.urlsafe_b64encode(hashlib.sha256(data).digest()).rstrip(b"=").decode()


def _wheel(folder, files):
    """Writes a wheel of these files. All have one time, so the same files make the same wheel."""
    files = {**files, f"{INFO}/METADATA": METADATA}
    files[f"{INFO}/WHEEL"] = f"Wheel-Version: 1.0\nGenerator: backend\nRoot-Is-Purelib: false\nTag: {TAG}\n".encode()
    record = [f"{path},sha256={_digest(data)},{len(data)}\n" for path, data in files.items()]
    files[f"{INFO}/RECORD"] = "".join([*record, f"{INFO}/RECORD,,\n"]).encode()
    wheel = f"{NAME}-{VERSION}-{TAG}.whl"
    with zipfile.ZipFile(pathlib.Path(folder) / wheel, "w", zipfile.ZIP_DEFLATED) as made:
        for path, data in files.items():
            entry = zipfile.ZipInfo(path)
            entry.external_attr, entry.compress_type = 0o644 << 16, zipfile.ZIP_DEFLATED
            made.writestr(entry, data)
    return wheel


def build_wheel(wheel_directory, config_settings=None, metadata_directory=None):
    return _wheel(wheel_directory, {**_sources(), f"{NAME}/libluvazhimba.so": _library()})


def build_editable(wheel_directory, config_settings=None, metadata_directory=None):
    return _wheel(wheel_directory, {f"{NAME}.pth": f"{HERE}\n".encode()})


def build_sdist(sdist_directory, config_settings=None):
    files = {it: (HERE / it).read_bytes() for it in ("pyproject.toml", "backend.py")}
    files.update({**_sources(), f"{NAME}/libluvazhimba.so": _library(), "PKG-INFO": METADATA})
    sdist = f"{NAME}-{VERSION}.tar.gz"
    with gzip.GzipFile(pathlib.Path(sdist_directory) / sdist, "wb", mtime=0) as packed, tarfile.open(fileobj=packed, mode="w", format=tarfile.PAX_FORMAT) as made:
        for path, data in files.items():
            entry = tarfile.TarInfo(f"{NAME}-{VERSION}/{path}")
            entry.size, entry.mode = len(data), 0o644
            made.addfile(entry, io.BytesIO(data))
    return sdist
