"""Tests of tools/profile and of ./ranges. Most run target/bin/program_ranges itself, which is quicker than ./ranges."""

from pathlib import Path

from cloverdrum_profile import program

TOOLS = Path(__file__).resolve().parents[1]
EXAMPLES = TOOLS.parent / "examples"

program.RANGES = TOOLS.parent / "target/bin/program_ranges"
