"""Makes the wheel of `pip install`, with nothing but Python: rbgtable.py, and beside it the solver's library and program as far as
they are there, in the checkout or the release that this folder lies in."""
import base64
import hashlib
import os
import tomllib
import zipfile
from pathlib import Path

HERE = Path(__file__).resolve().parent
ROOT = HERE.parent


class UnsupportedOperation(Exception):
    """What cannot be made here."""


def program():
    """The program: the one that RBGSOLVE_PROGRAM names, else that of the checkout, the release or the installation, if it is built."""
    named = os.environ.get("RBGSOLVE_PROGRAM")
    built = ["crates/solver_main/out/solver_main"] if (ROOT / "crates").is_dir() else ["rbgsolve", "solver_main"]
    found = [Path(named)] if named else [ROOT / path for path in built]
    # an installation has a script by the name of rbgsolve, which needs what lies beside it
    return next((path for path in found if path.is_file() and path.read_bytes()[:4] == b"\x7fELF"), None)


def parts(scripts):
    """What the wheel has: a name in it and a file for each part, and whether it is one for this machine alone."""
    yield "rbgtable.py", ROOT / "tools/rbgtable.py", False
    for folder in (ROOT / "library/out", ROOT / "library"):
        if (folder / "librbgsolve.so").is_file():
            yield "rbgsolve.py", folder / "rbgsolve.py", True
            yield "librbgsolve.so", folder / "librbgsolve.so", True
            break
    if program():
        yield f"{scripts}/rbgsolve", program(), True


def build_wheel(wheel_directory, config_settings=None, metadata_directory=None):
    project = tomllib.loads((HERE / "pyproject.toml").read_text(encoding="utf-8"))["project"]
    name = f"{project['name']}-{project['version']}"
    found = list(parts(f"{name}.data/scripts"))
    tag = "py3-none-linux_x86_64" if any(is_native for _, _, is_native in found) else "py3-none-any"
    metadata = f"Metadata-Version: 2.1\nName: {project['name']}\nVersion: {project['version']}\nSummary: {project['description']}\n"
    metadata += f"Requires-Python: {project['requires-python']}\n"
    about = f"Wheel-Version: 1.0\nGenerator: rbgsolve\nRoot-Is-Purelib: {str(tag.endswith('any')).lower()}\nTag: {tag}\n"
    contents = {inner: path.read_bytes() for inner, path, _ in found}
    contents |= {f"{name}.dist-info/METADATA": metadata.encode(), f"{name}.dist-info/WHEEL": about.encode()}
    record = f"{name}.dist-info/RECORD"
    contents[record] = "".join([*map(recorded, contents.items()), f"{record},,\n"]).encode()
    wheel = f"{name}-{tag}.whl"
    with zipfile.ZipFile(Path(wheel_directory) / wheel, "w", zipfile.ZIP_DEFLATED) as file:
        for inner, data in contents.items():
            entry = zipfile.ZipInfo(inner)
            entry.external_attr, entry.compress_type = (0o100755 if "/scripts/" in inner else 0o100644) << 16, zipfile.ZIP_DEFLATED
            file.writestr(entry, data)
    return wheel


def recorded(entry):
    """The line of the list of contents for a file."""
    name, data = entry
    return f"{name},sha256={base64.urlsafe_b64encode(hashlib.sha256(data).digest()).rstrip(b'=').decode()},{len(data)}\n"


def build_sdist(sdist_directory, config_settings=None):
    raise UnsupportedOperation("the sources are the whole checkout: git has them")
