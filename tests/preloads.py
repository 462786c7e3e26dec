"""The small libraries of this folder that are loaded before the C library."""

import os
import subprocess

HERE = os.path.dirname(os.path.realpath(__file__))


def compiled(name, folder):
    """The library that NAME.c makes, by the kit's compiler and with no header."""
    kit = os.path.dirname(subprocess.run(["rt", "doc"], check=True, capture_output=True, text=True).stdout.strip())
    library = f"{folder}/{name}.so"
    options = ["-O1", "-shared", "-fPIC", "-nostdlib", "-fuse-ld=lld"]
    subprocess.run([f"{kit}/toolchain/bin/clang", *options, "-o", library, f"{HERE}/{name}.c"], check=True)
    return library
