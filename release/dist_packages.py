#!/usr/bin/env python3
"""Puts the Python package where Debian's Python finds it, with what names its plugin of pytest.

    python3 release/dist_packages.py PACKAGE FOLDER VERSION

PACKAGE is the folder of the package, and FOLDER a folder dist-packages.
"""

import pathlib
import sys

from wheel import NAME, PLUGIN, below, metadata


def files_of(package, version):
    """The files below dist-packages: their names and their bytes."""
    info = f"{NAME}-{version}.dist-info"
    yield f"{info}/METADATA", metadata(version)
    yield f"{info}/INSTALLER", b"dpkg\n"
    yield f"{info}/entry_points.txt", PLUGIN.encode()
    for path, content in below(package):
        yield f"{NAME}/{path}", content


def main():
    package, folder, version = pathlib.Path(sys.argv[1]), pathlib.Path(sys.argv[2]), sys.argv[3]
    for name, content in files_of(package, version):
        path = folder / name
        path.parent.mkdir(parents=True, exist_ok=True)
        path.write_bytes(content)
        path.chmod(0o644)


if __name__ == "__main__":
    main()
