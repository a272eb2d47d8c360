"""What the program is to print, after the model: standard output and exit status of a call."""

from model import layout, text
from model.codes import Activation, MessageId, checksum

Answer = tuple[str, int]  # the output and the status


def answer(words: list[str], stdin: bytes) -> Answer:
    """The output and the status of a call with these words, whose standard input has these octets."""
    try:
        rest = [word for word in words[1:] if word not in ("--sign", "--")]
        if words[0] == "replay":
            return "\n".join(text.replayed(stdin)) + "\n", 0
        if words[0] == "code":
            return code(rest)
        if words[0] == "answer":
            return reply(rest[0], "--sign" in words, stdin)
        sign = text.described(stdin) if "--sign" in words else text.bench()
        pages, fault = layout.laid_out(sign.face, sign.face.defaults, rest[0].encode("utf-8"))
        if fault:
            return f"fault {fault[0]} at {fault[1]}\n", 1
        assert pages is not None
        if words[0] == "check":
            return f"ok pages {len(pages)}\n", 0
        return "\n".join(layout.drawn(sign.face, pages)) + "\n", 0
    except text.Bad as bad:
        return f"line {bad.line}\n", 1
    except text.TooLong:
        return "too long\n", 1


def reply(digits: str, is_described: bool, stdin: bytes) -> Answer:
    if len(digits) % 2 or any(c not in "0123456789abcdefABCDEF" for c in digits):
        return "not hex\n", 2
    sign = text.described(stdin) if is_described else text.bench()
    octets = text.answered(sign, bytes.fromhex(digits))
    return ("dropped\n", 1) if octets is None else (octets.hex() + "\n", 0)


def code(words: list[str]) -> Answer:
    """Of `code TYPE NUMBER TEXT` with its options."""
    options = {"--duration": "65535", "--priority": "255", "--address": "0.0.0.0"}
    flags, plain = set(), []
    left = iter(words)
    for word in left:
        name, equals, held = word.partition("=")
        if name in options:
            options[name] = held if equals else next(left)
        elif word in ("--beacon", "--pixel", "--swapped"):
            flags.add(word)
        else:
            plain.append(word)
    try:
        address = text.address(options["--address"].encode())
    except ValueError:
        return "bad address\n", 2
    octets = plain[2].encode("utf-8")
    if len(octets) > 512:
        return "text too long\n", 1
    crc = checksum(octets, int("--beacon" in flags), int("--pixel" in flags))
    named = MessageId(int(plain[0]), int(plain[1]), crc)
    activation = Activation(int(options["--duration"]), int(options["--priority"]), named, address)
    return f"crc {crc:04x}\ncode {activation.octets('--swapped' in flags).hex()}\n", 0
