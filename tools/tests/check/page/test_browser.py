"""The page in a real browser, where one is at hand."""

import shutil
import struct
import subprocess
import sys
import tempfile
import unittest
from pathlib import Path

from tests.check.page.pages import HOSTILE, RULES, page_html
from tests.planners import with_library

BROWSERS = (
    "chromium",
    "chromium-browser",
    "google-chrome",
    "chrome-headless-shell",
    "chromium-headless-shell",
)
NO_BROWSER = f"there is no browser on the PATH that works ({', '.join(BROWSERS)})"
SECONDS = 60
WIDTH, HEIGHT = 900, 700


def works(browser: str) -> bool:
    """It is there, and no stand-in that asks to be installed."""
    if shutil.which(browser) is None:
        return False
    return subprocess.run([browser, "--version"], capture_output=True).returncode == 0


BROWSER = next(filter(works, BROWSERS), None)


def setUpModule() -> None:
    if BROWSER is None:
        print(f"\n{NO_BROWSER}: the page is not tried in one", file=sys.stderr)


@with_library
@unittest.skipIf(BROWSER is None, NO_BROWSER)
class Browser(unittest.TestCase):
    def setUp(self) -> None:
        folder = tempfile.TemporaryDirectory()
        self.addCleanup(folder.cleanup)
        self.folder = Path(folder.name)
        self.page = self.folder / "page.html"

    def browse(self, *options: str) -> str:
        """What the browser prints of the page, without a network."""
        fixed = ["--headless", "--no-sandbox", "--disable-gpu", "--hide-scrollbars"]
        fixed += [f"--user-data-dir={self.folder / 'profile'}", "--proxy-server=127.0.0.1:9"]
        command = [BROWSER, *fixed, *options, self.page.as_uri()]
        done = subprocess.run(command, capture_output=True, timeout=SECONDS)
        self.assertEqual(done.returncode, 0, done.stderr.decode(errors="replace"))
        return done.stdout.decode()

    def test_text(self) -> None:
        self.page.write_text(page_html(RULES), encoding="utf-8")
        document = self.browse("--dump-dom")
        self.assertEqual(document.count("<article "), 10)
        self.assertIn("9 rules, 2 differ, 1 note, 1 line can't be read", document)
        self.assertIn("no match: `w` is 18 (column 11), and 16 stands here", document)

    def test_hostile_text_stays_text(self) -> None:
        self.page.write_text(page_html(HOSTILE), encoding="utf-8")
        document = self.browse("--dump-dom")
        self.assertEqual(document.count("<article "), 7)
        self.assertNotIn("<script", document)
        self.assertNotIn("<u>", document)

    def test_picture(self) -> None:
        self.page.write_text(page_html(RULES), encoding="utf-8")
        picture = self.folder / "page.png"
        self.browse(f"--screenshot={picture}", f"--window-size={WIDTH},{HEIGHT}")
        painted = picture.read_bytes()
        self.assertEqual(painted[:8], b"\x89PNG\r\n\x1a\n")
        self.assertEqual(struct.unpack(">II", painted[16:24]), (WIDTH, HEIGHT))
        self.page.write_text("<!DOCTYPE html><title>blank</title>")
        self.browse(f"--screenshot={picture}", f"--window-size={WIDTH},{HEIGHT}")
        self.assertGreater(len(painted), 5 * len(picture.read_bytes()))


if __name__ == "__main__":
    unittest.main()
