"""The page as one file: each script and style sheet that it names is put in its place.

    single_page.py PAGE.html OUT.html [IMAGE [TAPE]]

A game goes before the scripts, as the global GRAVITAR_GAME: {name, image, tape} with the files'
bytes in base64, and without `tape` where there is none.
"""

import base64
import json
import pathlib
import re
import sys

SCRIPT = re.compile(r'<script src="([^"]+)"></script>')
STYLE = re.compile(r'<link rel="stylesheet" href="([^"]+)">')
# A file that the page would still take from its folder.
OUTSIDE = re.compile(r'<(?:script|img|link|iframe|audio)\b[^>]*\b(?:src|href)="(?!data:|#)([^"]*)"')
IMAGE_LEN = 43008
LAST_LINE = re.compile(rb"(?:^|\n)[0-9]{1,15} END\n?$")


def in_script(code: str) -> str:
    """Code in which nothing ends the element that it stands in."""
    return re.sub(r"<(?=/script|!--)", r"<\\", code, flags=re.IGNORECASE)


def script(code: str) -> str:
    return f"<script>\n{in_script(code)}</script>"


def base64_of(content: bytes) -> str:
    return base64.b64encode(content).decode()


def content_of(path: pathlib.Path) -> bytes:
    """The bytes of a file; a file that can't be read ends the program."""
    try:
        return path.read_bytes()
    except OSError as error:
        sys.exit(f"web.sh: {path}: {error.strerror}")


def game(image_path: pathlib.Path, tape_path: "pathlib.Path | None") -> str:
    """The script that has somebody's game. Of a tape only the last line is looked at here."""
    image = content_of(image_path)
    if len(image) != IMAGE_LEN:
        sys.exit(f"web.sh: {image_path}: length {len(image)}; an image has {IMAGE_LEN} bytes")
    parts = {"name": image_path.stem, "image": base64_of(image)}
    if tape_path:
        tape = content_of(tape_path)
        if not LAST_LINE.search(tape):
            sys.exit(f"web.sh: {tape_path}: no tape; the last line of one is CLOCK END")
        parts["tape"] = base64_of(tape)
    return script(f"var GRAVITAR_GAME = {json.dumps(parts)};\n") + "\n"


def single(page: pathlib.Path, files: "list[pathlib.Path]") -> str:
    text = page.read_text()
    first = SCRIPT.search(text)
    if not first:
        sys.exit(f"web.sh: {page} names no script")
    if files:
        begin = game(files[0], files[1] if files[1:] else None)
        text = text[: first.start()] + begin + text[first.start() :]
    text = SCRIPT.sub(lambda it: script((page.parent / it[1]).read_text()), text)
    text = STYLE.sub(lambda it: f"<style>\n{(page.parent / it[1]).read_text()}</style>", text)
    bare = re.sub(r"<script>.*?</script>", "", text, flags=re.DOTALL)
    if left := OUTSIDE.search(bare):
        sys.exit(f"web.sh: {page} takes {left[1]} from its folder in a form that isn't known")
    return text


def main() -> None:
    page, out, *files = map(pathlib.Path, sys.argv[1:])
    text = single(page, files)
    try:
        out.write_text(text)
    except OSError as error:
        sys.exit(f"web.sh: {out}: {error.strerror}")
    print(f"{out}: {len(text.encode())} bytes")


if __name__ == "__main__":
    main()
