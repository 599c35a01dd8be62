"""Makes one script of modules, and one page of a template, style and scripts; esbuild does the
former. Debian's package esbuild has it.

A page may run its own script and use its own style sheet alone: its policy allows these by their
hashes.
"""

import base64
import hashlib
import html.entities
import json
import re
import shutil
import subprocess
import sys
import zlib
from collections.abc import Iterable
from html import unescape
from pathlib import Path
from typing import Any

HERE = Path(__file__).resolve().parent
TOP = HERE.parent
VIEW = HERE / "view"
sys.path.insert(0, str(TOP))

# pylint: disable=wrong-import-position
from query.program.refusals import FAULTS, UNKNOWN  # noqa: E402

FLAGS = ("--bundle", "--charset=utf8", "--minify-whitespace", "--log-level=warning")
# What browsers of 2023 have.
BROWSERS = "--target=es2022"
# What a page has until its data is read.
WAITING = """<h1 tabindex="-1">{{title}}</h1>
<p>The data is being read.</p>
<noscript><p>This page needs JavaScript. It loads nothing from elsewhere.</p></noscript>"""
# What every page may: nothing but what is allowed besides.
NOTHING = ("default-src 'none'",)
STRICT = ("base-uri 'none'", "form-action 'none'", "require-trusted-types-for 'script'")
HOLDER = '<script type="application/octet-stream" id="data-{name}">\n{signs}\n</script>'
PLACE = re.compile(r"\{\{(\w+)\}\}")
INDENT = re.compile(r"^(?: {4})+", re.M)
WIDTH = 120  # letters of base64 in a line


def bundled(entry: Path, *flags: str, given: str | None = None) -> str:
    """The module of a file and all that it imports as one script; with `given` the module is this
    text, which stands where the file would."""
    command = ["esbuild", *FLAGS, *flags]
    command += [str(entry)] if given is None else ["--loader=js"]
    folder = entry.parent if given is not None else HERE
    try:
        made = subprocess.run(
            command, cwd=folder, input=given, stdout=subprocess.PIPE, text=True, check=True
        )
    except FileNotFoundError:
        sys.exit("there is no esbuild: apt-get install esbuild")
    return made.stdout


def with_library(library: Path, folder: Path) -> Path:
    """A copy of the scripts in a folder, with another file for `library.js`. Returns its folder."""
    copy = folder / "web"
    shutil.copytree(HERE, copy, ignore=shutil.ignore_patterns("__pycache__"))
    shutil.copy(library, copy / "library.js")
    return copy


def script_of_page(entry: Path) -> str:
    """The script of a page."""
    code = bundled(entry, "--format=esm", BROWSERS)
    assert "</script" not in code.lower() and "<!--" not in code
    return "\n" + code


def part(path: Path) -> str:
    """A file of a page, indented by tabs, which keeps the page of a small database small."""
    text = path.read_text("utf-8")
    return INDENT.sub(lambda match: "\t" * (len(match[0]) // 4), text)


def style_of(paths: Iterable[Path]) -> str:
    """The style sheet of a page."""
    style = "\n" + "".join(map(part, paths))
    assert "</style" not in style.lower()
    return style


def hash_of(text: str) -> str:
    """The hash by which the policy of a page allows one element alone."""
    return "'sha256-" + base64.b64encode(hashlib.sha256(text.encode()).digest()).decode() + "'"


def policy(code: str, style: str, *more: str) -> str:
    """What a page may do: run its own script and use its own style, load nothing, and what `more`
    says besides; `'wasm-unsafe-eval'` is for the script."""
    runs = " ".join((hash_of(code), *(word for word in more if word[0] == "'")))
    rules = [rule for rule in more if rule[0] != "'"]
    allowed = (f"script-src {runs}", f"style-src {hash_of(style)}")
    return "; ".join((*NOTHING, *allowed, *STRICT, *rules))


def filled(parts: dict[str, str]) -> str:
    """The page: the template with these parts, all put in at once, so that what is put in is never
    searched for places."""
    return PLACE.sub(lambda match: parts[match[1]], part(VIEW / "page.html"))


def holders(blocks: dict[str, bytes]) -> str:
    """The elements that hold blocks."""
    return "\n".join(
        HOLDER.format(name=name, signs=in_base64(block)) for name, block in blocks.items()
    )


def in_base64(block: bytes) -> str:
    """A block, deflated, as text in lines."""
    signs = base64.b64encode(zlib.compress(block, 9)).decode()
    return "\n".join(signs[at : at + WIDTH] for at in range(0, len(signs), WIDTH))


def shell() -> list[str]:
    """The page of a database without title and data: texts, and the names of these between them."""
    style = style_of([VIEW / "page.css"])
    code = script_of_page(VIEW / "main.js")
    parts = {
        "policy": policy(code, style, "trusted-types 'none'"),
        "title": "{{title}}",
        "style": style,
        "main": WAITING,
        "more": "",
        "data": "{{data}}",
        "script": code,
    }
    return places_in(parts)


def places_in(parts: dict[str, str]) -> list[str]:
    """The template with these parts, cut at the places that are left. No other part is searched for
    places."""
    found: list[str] = [""]
    for at, word in enumerate(PLACE.split(part(VIEW / "page.html"))):
        text = word if at % 2 == 0 else parts[word]
        pieces = PLACE.split(text) if at % 2 == 1 and word in ("title", "main", "data") else [text]
        found[-1] += pieces[0]
        found += pieces[1:]
    return found


def number_references() -> dict[int, str]:
    """The numbers whose reference is neither their own sign nor nothing, with what it stands for;
    those from 0xD800 to 0xDFFF and above 0x10FFFF aside."""
    signs = {number: unescape(f"&#{number};") for number in range(0x100)}
    return {number: sign for number, sign in signs.items() if sign not in (chr(number), "")}


def empty_references() -> list[int]:
    """The numbers whose reference stands for nothing."""
    planes = [base + last for base in range(0x10000, 0x110000, 0x10000) for last in (-2, -1)]
    numbers = [*range(0x100), *range(0xFDD0, 0xFDF0), *planes, 0x10FFFE, 0x10FFFF]
    return [number for number in numbers if unescape(f"&#{number};") == ""]


def tables(maker: str) -> dict[str, Any]:
    """What the scripts are told by Python, of which they have no copy: HTML's named signs, what
    faults mean, and what is said of the program's version."""
    return {
        "maker": maker,
        "entities": {
            "named": html.entities.html5,
            "numbers": number_references(),
            "none": empty_references(),
        },
        "faults": {code: list(words) for code, words in FAULTS.items()},
        "unknown": list(UNKNOWN),
    }


def in_json(value: Any) -> bytes:
    """A value as scripts read it."""
    return json.dumps(value, separators=(",", ":")).encode()
