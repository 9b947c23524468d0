"""The header's version is that of CHANGELOG's newest entry."""

import re

from checks.tree import HEADER, ROOT

VERSION = re.compile(r"^#define CLOVERDRUM_VERSION (\d+)$", re.M)
ENTRY = re.compile(r"^## (\d+)\.(\d\d)\b", re.M)


def faults():
    version, entry = VERSION.search(HEADER.read_text()), ENTRY.search((ROOT / "CHANGELOG.md").read_text())
    if not version or not entry or version[1] != entry[1] + entry[2]:
        yield "CLOVERDRUM_VERSION in include/cloverdrum.h is not the version of CHANGELOG.md's first entry"
