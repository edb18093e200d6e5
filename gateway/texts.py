"""Bounds of texts that are any bytes, as bounds that PostgreSQL can hold: it has no text with a byte 0, and none that is no UTF-8."""
from typing import Optional

LAST = 0x10FFFF


def encoded(point: int) -> bytes:
    """A character; of the surrogates, which are none, the one behind them."""
    return chr(0xE000 if 0xD800 <= point < 0xE000 else point).encode()


def longest_text(value: bytes) -> bytes:
    """The longest beginning that is a text without a byte 0."""
    value = value.split(b'\0', 1)[0]
    try:
        value.decode()
        return value
    except UnicodeDecodeError as fault:
        return value[:fault.start]


def first_character(rest: bytes) -> Optional[bytes]:
    """The least character that does not lie below these bytes, and is not the byte 0."""
    low, high = 1, LAST + 1
    while low < high:
        middle = (low + high) // 2
        if encoded(middle) < rest:
            low = middle + 1
        else:
            high = middle
    return encoded(low) if low <= LAST else None


def least_text(value: bytes) -> Optional[str]:
    """The least text that PostgreSQL holds and that does not lie below these bytes; None where there is none."""
    text = longest_text(value)
    rest = value[len(text):]
    while rest:
        character = first_character(rest)
        if character is not None:
            return (text + character).decode()
        if not text:
            return None
        last = text.decode()[-1].encode()
        text, rest = text[:-len(last)], behind(last)
    return text.decode()


def behind(character: bytes) -> bytes:
    """What lies behind all texts that begin with the character: it, with its last byte raised."""
    return character[:-1] + bytes([character[-1] + 1])


def above_prefix(prefix: bytes) -> Optional[bytes]:
    """The least bytes above all texts that begin with the prefix; None where there are none."""
    prefix = prefix.rstrip(b'\xff')
    return behind(prefix) if prefix else None
