"""Builds the package for pip, by the standard library alone, so that `pip install ./python` needs neither a network nor setuptools (PEP 517 and 660).

A wheel is an archive of the package's files and of four files about it, of which RECORD has each file with its checksum.
"""
import base64
import hashlib
import pathlib
import tomllib
import zipfile

HERE = pathlib.Path(__file__).resolve().parent
STAMP = (2020, 1, 1, 0, 0, 0)  # of each file, so that a wheel of the same files is the same to the byte
KIND = "Wheel-Version: 1.0\nGenerator: wlframe\nRoot-Is-Purelib: true\nTag: py3-none-any\n"


def project():
    return tomllib.loads((HERE / "pyproject.toml").read_text(encoding="utf-8"))["project"]


def about():
    """What a wheel tells of the package, by the names of the files."""
    found = project()
    lines = ["Metadata-Version: 2.1", f"Name: {found['name']}", f"Version: {found['version']}", f"Summary: {found['description']}"]
    lines += [f"License: {found['license']['text']}", f"Requires-Python: {found['requires-python']}"]
    groups = {"console_scripts": found.get("scripts", {}), **found.get("entry-points", {})}
    points = "\n".join(f"[{group}]\n" + "".join(f"{name} = {place}\n" for name, place in points.items()) for group, points in groups.items())
    return {"METADATA": "\n".join(lines) + "\n", "WHEEL": KIND, "entry_points.txt": points}


def files():
    """The package's files, by their names in the wheel."""
    name = project()["name"]
    paths = [it for it in sorted((HERE / name).rglob("*")) if it.is_file() and it.suffix in (".py", ".typed")]
    return {str(it.relative_to(HERE)): it.read_bytes() for it in paths}


def write(folder, content):
    """Writes a wheel of this content, and answers its name."""
    found = project()
    label = f"{found['name']}-{found['version']}"
    whole = {**content, **{f"{label}.dist-info/{name}": text.encode() for name, text in about().items()}}
    lines = []
    for name, data in whole.items():
        sum_of = base64.urlsafe_b64encode(hashlib.sha256(data).digest()).rstrip(b"=").decode()
        lines.append(f"{name},sha256={sum_of},{len(data)}\n")
    whole[f"{label}.dist-info/RECORD"] = "".join([*lines, f"{label}.dist-info/RECORD,,\n"]).encode()
    path = pathlib.Path(folder) / f"{label}-py3-none-any.whl"
    with zipfile.ZipFile(path, "w", zipfile.ZIP_DEFLATED) as archive:
        for name, data in whole.items():
            archive.writestr(zipfile.ZipInfo(name, STAMP), data, zipfile.ZIP_DEFLATED)
    return path.name


def build_wheel(wheel_directory, config_settings=None, metadata_directory=None):
    """The hook by which pip gets the package."""
    del config_settings, metadata_directory
    return write(wheel_directory, files())


def build_editable(wheel_directory, config_settings=None, metadata_directory=None):
    """The hook of `pip install --editable`: a path to this folder in place of the files."""
    del config_settings, metadata_directory
    return write(wheel_directory, {f"{project()['name']}.pth": f"{HERE}\n".encode()})
