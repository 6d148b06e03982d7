"""Builds the package of the clients for Python by the standard library alone, so that pip needs no network for it.

pip calls these functions (PEP 517 and 660). `python3 packaging/wheel_backend.py FOLDER` writes the wheel into a folder
and prints its name. The same files make the same bytes: the time of each is SOURCE_DATE_EPOCH, or else 1980.
"""
import base64
import hashlib
import os
import re
import sys
import tarfile
import time
import zipfile

FOLDER = os.path.dirname(os.path.dirname(os.path.abspath(__file__)))
# What a zip file can name.
EARLIEST = 315_532_800


def settings():
    """The words of pyproject.toml, `name = "value"`, by their names. (Before 3.11 Python reads no TOML.)"""
    with open(os.path.join(FOLDER, "pyproject.toml"), encoding="utf-8") as file:
        return dict(re.findall(r'^([\w-]+) = "(.*)"$', file.read(), re.M))


def modules():
    return sorted(name for name in os.listdir(FOLDER) if re.fullmatch(r"hhm_\w+\.py", name))


def content(name):
    with open(os.path.join(FOLDER, name), "rb") as file:
        return file.read()


def base_name():
    given = settings()
    return f"{given['name'].replace('-', '_')}-{given['version']}"


def metadata():
    given = settings()
    return (f"Metadata-Version: 2.1\nName: {given['name']}\nVersion: {given['version']}\n"
            f"Summary: {given['description']}\nRequires-Python: {given['requires-python']}\n").encode()


def write_wheel(folder, files):
    """Writes a wheel of these files, bytes by their names, and what pip reads of it. Gives its name."""
    base = base_name()
    info = f"{base}.dist-info"
    files = {
        **files,
        f"{info}/METADATA": metadata(),
        f"{info}/WHEEL": b"Wheel-Version: 1.0\nGenerator: hhm\nRoot-Is-Purelib: true\nTag: py3-none-any\n",
        f"{info}/entry_points.txt": f"[console_scripts]\nhhmc = {settings()['hhmc']}\n".encode(),
    }
    lines = [f"{name},sha256={digest(data)},{len(data)}\n" for name, data in files.items()]
    files[f"{info}/RECORD"] = "".join([*lines, f"{info}/RECORD,,\n"]).encode()
    name = f"{base}-py3-none-any.whl"
    when = time.gmtime(max(EARLIEST, int(os.environ.get("SOURCE_DATE_EPOCH", EARLIEST))))[:6]
    with zipfile.ZipFile(os.path.join(folder, name), "w", zipfile.ZIP_DEFLATED) as wheel:
        for path, data in files.items():
            entry = zipfile.ZipInfo(path, when)
            entry.external_attr = 0o100644 << 16
            wheel.writestr(entry, data, zipfile.ZIP_DEFLATED)
    return name


def digest(data):
    return base64.urlsafe_b64encode(hashlib.sha256(data).digest()).rstrip(b"=").decode()


def build_wheel(wheel_directory, config_settings=None, metadata_directory=None):
    return write_wheel(wheel_directory, {name: content(name) for name in modules()})


def build_editable(wheel_directory, config_settings=None, metadata_directory=None):
    """A wheel that has the path of this folder in place of its modules."""
    return write_wheel(wheel_directory, {"hhm_client.pth": f"{FOLDER}\n".encode()})


def build_sdist(sdist_directory, config_settings=None):
    base = base_name()
    with tarfile.open(os.path.join(sdist_directory, f"{base}.tar.gz"), "w:gz") as sources:
        for name in [*modules(), "pyproject.toml", "packaging/wheel_backend.py"]:
            sources.add(os.path.join(FOLDER, name), f"{base}/{name}")
    return f"{base}.tar.gz"


if __name__ == "__main__":
    print(build_wheel(sys.argv[1]))
