"""Makes a wheel of the module with the library in it, by Python alone (PEP 517), so that `pip wheel .` needs no network
and nothing that has to be installed first.

The version is the library's, where crates/rb_capi says it. The library is that of bindings/out, or of the folder that
the environment's RBBANK_LIB names; the wheel is for machines as this one.
"""
import base64
import hashlib
import os
import re
import sysconfig
import zipfile

HERE = os.path.dirname(os.path.abspath(__file__))
VERSION_FILE = os.path.join(HERE, "..", "..", "crates", "rb_capi", "src", "version.rt")
SUMMARY = "The core of a replicated bank with RedBlue consistency and exact undo, by its proved library"
TAG = "py3-none-" + re.sub(r"\W", "_", sysconfig.get_platform())


def read(path):
    with open(path, "rb") as file:
        return file.read()


def version():
    return re.search(rb'VERSION: &str = "(.*?)"', read(VERSION_FILE))[1].decode()


def library():
    """The library's bytes."""
    path = os.path.join(os.environ.get("RBBANK_LIB") or os.path.join(HERE, "..", "out"), "librbbank.so")
    if not os.path.exists(path):
        raise SystemExit(f"{path}: no such file; `make bindings` makes it")
    return read(path)


def lines(*texts):
    return "".join(text + "\n" for text in texts).encode()


def contents():
    """Each file of the wheel, with its bytes."""
    info = f"rbbank-{version()}.dist-info"
    files = {f"rbbank/{name}": read(os.path.join(HERE, "rbbank", name)) for name in ("__init__.py", "py.typed")}
    files["rbbank/librbbank.so"] = library()
    files[f"{info}/LICENSE"] = read(os.path.join(HERE, "..", "..", "LICENSE"))
    files[f"{info}/METADATA"] = lines("Metadata-Version: 2.1", "Name: rbbank", f"Version: {version()}",
                                      f"Summary: {SUMMARY}", "License: Apache-2.0", "Requires-Python: >=3.9")
    files[f"{info}/WHEEL"] = lines("Wheel-Version: 1.0", "Generator: build_wheel", "Root-Is-Purelib: false",
                                   f"Tag: {TAG}")
    rows = []
    for name, data in files.items():
        digest = base64.urlsafe_b64encode(hashlib.sha256(data).digest()).rstrip(b"=").decode()
        rows.append(f"{name},sha256={digest},{len(data)}")
    return files | {f"{info}/RECORD": lines(*rows, f"{info}/RECORD,,")}


def build_wheel(folder, _settings=None, _metadata=None):
    """Writes the wheel into a folder, and gives its name. The same files give the same bytes."""
    name = f"rbbank-{version()}-{TAG}.whl"
    with zipfile.ZipFile(os.path.join(folder, name), "w", zipfile.ZIP_DEFLATED) as wheel:
        for path, data in contents().items():
            wheel.writestr(zipfile.ZipInfo(path), data, zipfile.ZIP_DEFLATED)
    return name
