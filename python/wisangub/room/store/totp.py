"""Codes of a second factor: TOTP (RFC 6238), with which HOTP (RFC 4226) counts steps of time."""

import base64
import hmac
import secrets
from urllib.parse import quote

STEP = 30  # seconds that a code is good for
_DIGITS, _OCTETS, _AROUND = 6, 20, 1  # of a code, of a secret; steps before and after the present one that count too
_ISSUER = "Control room"


def code(secret: bytes, step: int, digits: int = _DIGITS, kind: str = "sha1") -> str:
    """The code of a step of time, in decimal digits."""
    sum_ = hmac.digest(secret, step.to_bytes(8, "big"), kind)
    at = sum_[-1] & 15
    number = int.from_bytes(sum_[at : at + 4], "big") & 0x7FFF_FFFF
    return f"{number % 10**digits:0{digits}}"


def new_secret() -> str:
    """A secret by chance, in base 32, as programs for codes read it."""
    return base64.b32encode(secrets.token_bytes(_OCTETS)).decode()


def step_of(secret: str, word: str, now: float, used: int) -> int | None:
    """The step of time whose code the word is, of those around now, in seconds since 1970, and after the one that was
    used last; None where it is none."""
    octets, present = base64.b32decode(secret), int(now // STEP)
    word = "".join(word.split())
    for step in range(max(present - _AROUND, used + 1, 0), present + _AROUND + 1):
        if hmac.compare_digest(code(octets, step).encode(), word.encode()):
            return step
    return None


def address_of(name: str, secret: str) -> str:
    """What a program for codes takes by a link: the user and his secret."""
    issuer = quote(_ISSUER)
    return (
        f"otpauth://totp/{issuer}:{quote(name)}?secret={secret}&issuer={issuer}&algorithm=SHA1&digits=6&period={STEP}"
    )
