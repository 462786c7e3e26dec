#!/usr/bin/env python3
"""Makes a picture of the top of a page about a run, with Chromium.

    examples/page_picture.py PAGE.html PICTURE.png [--width PIXELS] [--height PIXELS]

The picture in the README is that of examples/etcd-paused.html.
"""
import argparse
import os
import sys
import tempfile

sys.dont_write_bytecode = True
TOP = os.path.dirname(os.path.dirname(os.path.realpath(__file__)))
sys.path.insert(0, f"{TOP}/tests")
from chromium import Browser, installed


def main():
    words = argparse.ArgumentParser(description=__doc__.split("\n")[0])
    words.add_argument("page")
    words.add_argument("picture")
    words.add_argument("--width", type=int, default=1280)
    words.add_argument("--height", type=int, default=790)
    words = words.parse_args()
    command = installed()
    if not command:
        print("page_picture.py: needs Chromium (apt-get install chromium)", file=sys.stderr)
        return 6
    with tempfile.TemporaryDirectory(prefix="picture-") as folder:
        browser = Browser(command, folder, f"{words.width},{words.height}", ["--blink-settings=preferredColorScheme=1"])
        browser.screenshot(os.path.abspath(words.page), os.path.abspath(words.picture))
    return 0


sys.exit(main())
