"""Chromium without a window, for tests that open what the program makes."""
import shutil
import subprocess

NAMES = ["chromium", "chromium-browser", "google-chrome"]
SECONDS = 120


def installed():
    """The command of a browser of this machine, or None."""
    return next((name for name in NAMES if shutil.which(name)), None)


class Browser:
    """Runs `command` over pages; what it keeps is in `folder`. Settings are words for each run."""

    def __init__(self, command, folder, size="1280,720", settings=()):
        self.words = [command, "--headless", "--no-sandbox", "--disable-gpu", "--hide-scrollbars", f"--user-data-dir={folder}/browser",
                      f"--window-size={size}", *settings]

    def run(self, *words):
        return subprocess.run([*self.words, *words], capture_output=True, text=True, timeout=SECONDS, check=True)

    def dom(self, path):
        return self.run("--dump-dom", f"file://{path}").stdout

    def errors(self, path):
        """The lines that the page prints to the console."""
        told = self.run("--enable-logging=stderr", "--dump-dom", f"file://{path}").stderr
        return [line for line in told.splitlines() if "CONSOLE" in line]

    def screenshot(self, path, image):
        self.run(f"--screenshot={image}", f"file://{path}")

    def print_to(self, path, pdf):
        self.run(f"--print-to-pdf={pdf}", f"file://{path}")
