"""CONTRIBUTING alone describes the gate."""

from public import ROOT
from sources import Finding

RUN = ROOT / ".ci" / "run"
PAGE = ROOT / "docs" / "CONTRIBUTING.md"


def findings():
    lines = RUN.read_text().splitlines()
    comments = [line for line in lines if line.startswith("#") and not line.startswith("#!")]
    if len(comments) != 1 or named_page() not in comments[0]:
        yield Finding(".ci/run", 2, f"the comment should be one line, which leads to {named_page()}")
    if "exec rt ci" not in lines:
        yield Finding(".ci/run", len(lines), "the last line should be `exec rt ci`")
    gate = PAGE.read_text().partition("## What the gate checks")[2].partition("\n## ")[0]
    for word in ("rt ci", ".ci/run"):
        if f"`{word}`" not in gate:
            yield Finding(named_page(), 1, f"'What the gate checks' doesn't name `{word}`")


def named_page():
    """The page, as others name it."""
    return str(PAGE.relative_to(ROOT))
