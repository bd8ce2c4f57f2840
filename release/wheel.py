#!/usr/bin/env python3
"""The wheel of the Python package with the shared library in it: `wheel.py VERSION LIBRARY FOLDER`. Without a build
tool, since none may be fetched; the same bytes from the same files."""
import base64
import hashlib
import pathlib
import re
import subprocess
import sys
import zipfile

HERE = pathlib.Path(__file__).resolve().parent.parent
MOMENT = (1980, 1, 1, 0, 0, 0)


def platform(library):
    """The oldest glibc that has every symbol which the library asks for, as a tag."""
    said = subprocess.run(["objdump", "-T", library], check=True, capture_output=True, text=True).stdout
    versions = [tuple(map(int, found.split("."))) for found in re.findall(r"GLIBC_([\d.]+)", said)]
    # 2.17 is the least that pip has a name for
    return "manylinux_{}_{}_x86_64".format(*max([(2, 17), *(version[:2] for version in versions)]))


def metadata(version):
    readme = f"""# suontarvi

MC64 matching and scaling for numpy and scipy.sparse, over a library in which every call is proved to meet its contract.
The shared library is in this wheel. numpy and scipy are needed and not fetched: `pip install suontarvi[arrays]` does.

```python
import numpy, suontarvi

scaling = suontarvi.scale(numpy.array([[1.0, 1024.0], [8.0, 3.0]]), "whole")
print(scaling.match.perm, scaling.scaled.toarray())
```

`help(suontarvi)` says the rest.
"""
    head = f"""Metadata-Version: 2.1
Name: suontarvi
Version: {version}
Summary: MC64 matching and scaling of sparse matrices, over a proved library
License: MIT
License-File: LICENSE
License-File: NOTICE
Classifier: License :: OSI Approved :: MIT License
Classifier: Operating System :: POSIX :: Linux
Classifier: Programming Language :: Python :: 3
Classifier: Topic :: Scientific/Engineering :: Mathematics
Classifier: Typing :: Typed
Requires-Python: >=3.8
Provides-Extra: arrays
Requires-Dist: numpy>=1.21; extra == "arrays"
Requires-Dist: scipy>=1.7; extra == "arrays"
Description-Content-Type: text/markdown
"""
    return head + "\n" + readme


def main(version, library, folder):
    tag = f"py3-none-{platform(library)}"
    info = f"suontarvi-{version}.dist-info"
    package = sorted((HERE / "python" / "suontarvi").glob("*.py")) + [HERE / "python" / "suontarvi" / "py.typed"]
    files = {f"suontarvi/{path.name}": path.read_bytes() for path in package}
    files["suontarvi/libsuontarvi.so.0"] = pathlib.Path(library).read_bytes()
    for name in ("LICENSE", "NOTICE"):
        files[f"{info}/{name}"] = (HERE / name).read_bytes()
    files[f"{info}/METADATA"] = metadata(version).encode()
    files[f"{info}/WHEEL"] = f"Wheel-Version: 1.0\nGenerator: suontarvi\nRoot-Is-Purelib: false\nTag: {tag}\n".encode()
    record = ""
    for name, content in files.items():
        digest = base64.urlsafe_b64encode(hashlib.sha256(content).digest()).rstrip(b"=").decode()
        record += f"{name},sha256={digest},{len(content)}\n"
    files[f"{info}/RECORD"] = (record + f"{info}/RECORD,,\n").encode()
    wheel = pathlib.Path(folder) / f"suontarvi-{version}-{tag}.whl"
    with zipfile.ZipFile(wheel, "w", zipfile.ZIP_DEFLATED) as packed:
        for name, content in files.items():
            entry = zipfile.ZipInfo(name, MOMENT)
            entry.external_attr = 0o644 << 16
            entry.compress_type = zipfile.ZIP_DEFLATED
            packed.writestr(entry, content)
    print(wheel)


main(*sys.argv[1:4])
