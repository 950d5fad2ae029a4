"""How many bytes numbers, texts and lists have in the value of an entry."""

from __future__ import annotations

from collections.abc import Iterable


def varint_length(number: int) -> int:
    return max(1, -(-number.bit_length() // 7))


def text_length(text: str) -> int:
    """Returns the bytes of a text in a value: its length as a varint, and its bytes."""
    return varint_length(len(text.encode())) + len(text.encode())


def list_length(items: Iterable[int]) -> int:
    """Returns the bytes of a list in a value, by those of its items."""
    lengths = list(items)
    return varint_length(len(lengths)) + sum(lengths)
