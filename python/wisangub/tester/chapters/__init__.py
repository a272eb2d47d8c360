"""The chapters, in the order in which they run."""

from . import (
    activation,
    ber,
    communities,
    defaults,
    device,
    durations,
    get,
    getnext,
    priorities,
    random_requests,
    repeated,
    rows,
    sets,
    silence,
    sizes,
    validation,
)
from .block import Block, Chapter

ALL = [
    ber.CHAPTER,
    communities.CHAPTER,
    get.CHAPTER,
    getnext.CHAPTER,
    sets.CHAPTER,
    rows.CHAPTER,
    durations.CHAPTER,
    validation.CHAPTER,
    activation.CHAPTER,
    priorities.CHAPTER,
    defaults.CHAPTER,
    silence.CHAPTER,
    sizes.CHAPTER,
    repeated.CHAPTER,
    random_requests.CHAPTER,
    device.CHAPTER,
]
NAMES = [chapter.name for chapter in ALL]
ASKED = {
    "ber": "lengths in long forms, needless octets, forms and ranges of integers and names, types, what is cut",
    "communities": "who reads, who writes, who is not answered",
    "get": "every instance, and what is none",
    "getnext": "after every instance, over every gap, before the first, past the last",
    "set": "each range and one past each end, what is not written, order of causes, names twice, two commands",
    "rows": "each status asked for each command and written; one row that validates; the most and the least it holds",
    "durations": "0 minutes, minutes as they are read; that a minute is no seconds; whole minutes with --slow",
    "validation": "each verdict, and each fault of a text with its offset, in texts made for the sign's own fonts",
    "activation": "each cause of a refusal and their order; what is shown and reported",
    "priorities": "whose message goes before whose",
    "defaults": "what they decide on, what was copied, what does not follow",
    "silence": "with --slow: a minute without a datagram, and what is no silence",
    "sizes": "answers of 1,471 to 1,474 octets",
    "repeated": "the same datagram again, and datagrams out of order",
    "random": "requests by --seed: valid, nearly valid, hostile",
    "device": "with --claims: what the sign claims beside the profile, read, set to its ends and past them, put back",
}

__all__ = ["ALL", "ASKED", "NAMES", "Block", "Chapter"]
