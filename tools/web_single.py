"""Makes web/single.js: the page as one file, without its module, as a script that a page reads.

    python3 tools/web_single.py           writes it
    python3 tools/web_single.py --check   status 1 where it isn't what the page gives

The workshop shares a game with it. A page that is opened by file:// has no other way to the text of
its own scripts. The module's base64 is cut out: the page has it already.
"""
import json
import pathlib
import sys

TOOLS = pathlib.Path(__file__).resolve().parent
sys.path.insert(0, str(TOOLS / "wasm"))
import single_page  # noqa: E402

WEB = TOOLS.parent / "web"
OUT = WEB / "single.js"
OPENING = "var GRAVITAR_MODULE = `"


def script() -> str:
    """The text of web/single.js."""
    text = single_page.single(WEB / "index.html", [])
    begin = text.index(OPENING) + len(OPENING)
    parts = [text[:begin], text[text.index("`", begin) :]]
    return (
        "// The page as one file, before and behind its module, made by tools/web_single.py.\n"
        f"var GRAVITAR_SINGLE = {json.dumps(parts)};\n"
        "if (typeof module === 'object') module.exports = GRAVITAR_SINGLE;\n"
    )


def main(words: list[str]) -> int:
    """Writes the file, or compares it."""
    if words == ["--check"]:
        same = OUT.exists() and OUT.read_text() == script()
        print(f"{OUT.relative_to(WEB.parent)}: {'as the page gives it' if same else 'differs'}")
        return 0 if same else 1
    OUT.write_text(script())
    return 0


if __name__ == "__main__":
    sys.exit(main(sys.argv[1:]))
