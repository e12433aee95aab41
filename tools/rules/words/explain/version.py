"""plan_rule --version."""

import re
from pathlib import Path

from rules.question import VERSIONS

HEADER = Path(__file__).resolve().parents[4] / "include" / "teluddru.h"
VERSION = re.compile(r'^#define TELUDDRU_VERSION "(.*)"$', re.MULTILINE)


def version_in_words(library: Path) -> str:
    """The tool's version, which is the library's own, where that is, and the versions of Rego."""
    built = "" if library.exists() else " (not built: tools/build_library)"
    return (
        f"plan_rule {header_version()}\n"
        f"library: {library}{built}\n"
        f"Rego: {', '.join(VERSIONS)}\n"
    )


def header_version() -> str:
    try:
        found = VERSION.search(HEADER.read_text())
    except OSError:
        found = None
    return found[1] if found else "of an unknown version"
