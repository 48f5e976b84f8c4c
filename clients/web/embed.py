#!/usr/bin/env python3
"""Writes the page for browsers into the source of the program, crates/acdm_web/src/page.rt.

    clients/web/embed.py [--check]

The page is clients/web/page.html with page.css and page.js in their places, and the words of docs/schema/words.json
before the script, all without comments and indentation. With --check nothing is written, and the status is 1 where
the source is not that of the page. Outside what is proved.
"""
import json
import re
import sys
from pathlib import Path

WEB = Path(__file__).resolve().parent
TOP = WEB.parents[1]
sys.path.insert(0, str(WEB.parent))

from words import ALERTS, MILESTONES, REFUSALS, ROLES, TURNS  # noqa: E402 pylint: disable=wrong-import-position

SOURCE = TOP / "crates" / "acdm_web" / "src" / "page.rt"
BEGIN = """//! The page for browsers, which clients/web/embed.py writes from clients/web and docs/schema/words.json.

/// The page, complete in itself.
pub static PAGE: &str = """


def words() -> str:
    """What the script has of the words, as JSON that ends no script."""
    milestones = [{"short": place["short"], "owner": place["owners"][0]} for place in MILESTONES]
    found = {"roles": ROLES, "alerts": ALERTS, "turns": TURNS, "milestones": milestones, "refusals": REFUSALS}
    return json.dumps(found, separators=(",", ":")).replace("<", "\\u003c")


def html(text: str) -> str:
    """A page without indentation."""
    return "\n".join(line.strip() for line in text.splitlines() if line.strip())


def style(text: str) -> str:
    """A style sheet without comments, and without the space that it does not need."""
    bare = re.sub(r"/\*.*?\*/", "", text, flags=re.DOTALL)
    return re.sub(r"\s*([{};,]|:(?= ))\s*", r"\1", re.sub(r"\s+", " ", bare)).replace(";}", "}").strip()


def script(text: str) -> str:
    """A script without lines of comment and indentation; none of its texts goes over a line."""
    lines = [line.strip() for line in text.splitlines()]
    return "\n".join(line for line in lines if line and not line.startswith("//"))


def page() -> str:
    """The page, complete in itself."""
    text, sheet, code = ((WEB / name).read_text(encoding="utf-8") for name in ("page.html", "page.css", "page.js"))
    first, *rest = script(code).split("\n", 1)
    code = "\n".join([first, f"const WORDS={words()};", *rest])
    whole = html(text).replace("<!-- page.css -->", f"<style>{style(sheet)}</style>")
    return whole.replace("<!-- page.js -->", f"<script>\n{code}\n</script>") + "\n"


def source() -> str:
    """The source of the program that has the page."""
    text = page()
    if '"##' in text or "\r" in text:
        raise ValueError('the page has "## or a carriage return')
    return f'{BEGIN}r##"{text}"##;\n'


def main(arguments: list[str]) -> int:
    if arguments not in ([], ["--check"]):
        print("embed.py: one word may be given, --check", file=sys.stderr)
        return 2
    try:
        if not arguments:
            SOURCE.write_text(source(), encoding="utf-8")
        elif SOURCE.read_text(encoding="utf-8") != source():
            print(f"embed.py: {SOURCE.relative_to(TOP)} is not that of the page", file=sys.stderr)
            return 1
    except (OSError, ValueError) as fault:
        print(f"embed.py: {fault}", file=sys.stderr)
        return 2
    return 0


if __name__ == "__main__":
    sys.exit(main(sys.argv[1:]))
