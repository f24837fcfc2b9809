#!/usr/bin/env python3
"""Makes the package for Node, causal-judge-VERSION.tgz, by `npm pack`, with the same bytes each time.

    python3 release/node_package.py MODULE SOURCE VERSION OUT [BUILD]

MODULE is causal_judge.wasm, as release/wasm.sh makes it, or `none`: then the package has no module, and judges nothing. SOURCE is a working
tree, OUT the folder for the package, and BUILD a file that says what was built, which is packed.
"""

import argparse
import json
import os
import pathlib
import shutil
import subprocess
import sys
import tempfile

PACKED = ("README.md", "bin", "index.d.ts", "index.js", "lib")


def stage(given, folder):
    """Puts the files of the package in a folder."""
    source = given.source / "node"
    for name in PACKED:
        path = source / name
        if path.is_dir():
            shutil.copytree(path, folder / name)
        else:
            shutil.copyfile(path, folder / name)
    described = json.loads((source / "package.json").read_text(encoding="utf-8")) | {"version": given.version}
    (folder / "package.json").write_text(json.dumps(described, indent=2) + "\n", encoding="utf-8")
    shutil.copyfile(given.source / "LICENSE", folder / "LICENSE")
    shutil.copyfile(given.source / "release" / "wasm" / "judge.mjs", folder / "lib" / "judge_module.mjs")
    if given.module != "none":
        shutil.copyfile(given.module, folder / "lib" / "causal_judge.wasm")
    if given.build:
        shutil.copyfile(given.build, folder / "BUILD")
    for path in folder.rglob("*"):
        path.chmod(0o755 if path.is_dir() or path.parent.name == "bin" else 0o644)


def pack(folder, out):
    """Has npm pack a folder, and returns the name of the package. npm reaches no registry, and writes nothing outside of both folders."""
    settings = {"npm_config_cache": str(folder.parent / "cache"), "npm_config_update_notifier": "false", "HOME": str(folder.parent)}
    words = ["npm", "pack", "--offline", "--ignore-scripts", "--json", "--pack-destination", str(out)]
    done = subprocess.run(words, cwd=folder, env=os.environ | settings, check=False, stdin=subprocess.DEVNULL, capture_output=True, text=True)
    if done.returncode != 0:
        sys.exit(f"{done.stderr}\nnpm pack: status {done.returncode}")
    return json.loads(done.stdout)[0]["filename"]


def main():
    parser = argparse.ArgumentParser(description=__doc__, formatter_class=argparse.RawDescriptionHelpFormatter)
    parser.add_argument("module", metavar="MODULE")
    parser.add_argument("source", metavar="SOURCE", type=pathlib.Path)
    parser.add_argument("version", metavar="VERSION")
    parser.add_argument("out", metavar="OUT", type=pathlib.Path)
    parser.add_argument("build", metavar="BUILD", nargs="?")
    given = parser.parse_args()
    with tempfile.TemporaryDirectory(prefix="node-package-") as room:
        folder = pathlib.Path(room) / "package"
        folder.mkdir()
        stage(given, folder)
        print(pack(folder, given.out.resolve()))


if __name__ == "__main__":
    main()
