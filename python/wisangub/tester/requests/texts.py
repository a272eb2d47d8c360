"""Texts as they are written: the tags that stand in one."""

import re

# the profile's tags by their names
TAGS = ("cb", "pb", "cf", "fo", "fl", "hc", "jl", "jp", "nl", "np", "pt")
_TAG = re.compile(rb"\[\[|\[/?([A-Za-z]{2})[^\[\]]*\]")


def tags_of(text: bytes) -> set[str]:
    """The names of the tags of a text, well formed or not."""
    found = {held[1].decode().lower() for held in _TAG.finditer(text) if held[1]}
    return {tag for tag in found if tag in TAGS}
