"""Builds the programs in Rust of bench/, with which others are compared."""
import subprocess
from pathlib import Path

BENCH = Path(__file__).resolve().parent


def built(source, folder):
    """The path of the program that this source, as `plain/plain.rs`, is compiled to in a folder."""
    program = f"{folder}/{Path(source).stem}"
    subprocess.run(["rustc", "--edition", "2021", "-O", "-o", program, BENCH / source], check=True)
    return program
