"""Passwords: what is kept of them is the scrypt (RFC 7914) of each with a salt of its own."""

import functools
import hashlib
import hmac
import secrets

COST, _BLOCK, _LANES = 2**15, 8, 3  # 32 MiB, and some tenths of a second
_MEMORY = 64 * 2**20
_LEAST, _MOST = 10, 200  # characters of a password


def _digest(password: str, salt: bytes, cost: int, block: int, lanes: int) -> bytes:
    return hashlib.scrypt(password.encode(), salt=salt, n=cost, r=block, p=lanes, maxmem=_MEMORY, dklen=32)


def secret_of(password: str) -> str:
    """What is kept of a password."""
    salt = secrets.token_bytes(16)
    return f"scrypt {COST} {_BLOCK} {_LANES} {salt.hex()} {_digest(password, salt, COST, _BLOCK, _LANES).hex()}"


@functools.cache
def nobody() -> str:
    """What a name is checked against that is nobody's, so that it takes the same time."""
    return secret_of(secrets.token_hex(16))


def is_password(password: str, secret: str) -> bool:
    """Whether the secret was made of this password."""
    kind, cost, block, lanes, salt, kept = secret.split(" ")
    if kind != "scrypt" or len(password) > _MOST:
        return False
    return hmac.compare_digest(
        _digest(password, bytes.fromhex(salt), int(cost), int(block), int(lanes)), bytes.fromhex(kept)
    )


def fault_of(password: str) -> str | None:
    """Why it is no password that is taken."""
    if not _LEAST <= len(password) <= _MOST:
        return f"a password has {_LEAST} to {_MOST} characters"
    if len(set(password)) < 4:
        return "a password has at least four different characters"
    if any("\ud800" <= one <= "\udfff" for one in password):
        return "a password is written in UTF-8"
    return None
