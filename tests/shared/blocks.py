"""The blocks of a page that `mmquery page` wrote, for tests of what a page has."""

import base64
import re
import zlib

Blocks = dict[str, bytes]

HOLDER = re.compile(
    r'<script type="application/octet-stream" id="data-([^"]*)" data-page="[0-9a-f]{8}">([^<]*)<'
)


def blocks_in(page: str) -> Blocks:
    """The blocks of a page, by their names."""
    return {name: zlib.decompress(base64.b64decode(signs)) for name, signs in HOLDER.findall(page)}


def lines_in(blocks: Blocks, name: str) -> list[str]:
    """The lines of a block that is a text."""
    return blocks[name].decode().split("\n")


def with_block(page: str, name: str, packed: bytes) -> str:
    """A page with other bytes in place of those of a block, which are deflated as it stands."""
    start, found, end = page.partition(f'id="data-{name}"')
    head, _, rest = end.partition(">")
    _, close, rest = rest.partition("<")
    assert found and close
    return f"{start}{found}{head}>{base64.b64encode(packed).decode()}{close}{rest}"
