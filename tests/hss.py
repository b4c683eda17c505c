"""Signatures of two levels of LMS trees over SHA-256 (RFC 8554), written from the standard; it shares nothing with the program.

The lower key under a top leaf is this project's own derivation: its seed is SHA-256 of the byte 3, the top seed and the leaf in four
bytes, its identifier the first 16 bytes of SHA-256 of the byte 4 and the same. The numbers of signatures count the lower leaves.
"""

import hashlib
from functools import lru_cache

# Section 4.1: width in bits, chains, and how far the checksum is shifted, by the LM-OTS type.
OTS = {3: (4, 67, 4), 4: (8, 34, 0)}
# Section 5.1: the tree's height by the LMS type.
HEIGHTS = {5: 5, 6: 10}
PBLC, MESG, LEAF, INTR = b"\x80\x80", b"\x81\x81", b"\x82\x82", b"\x83\x83"


def sha(*parts):
    return hashlib.sha256(b"".join(parts)).digest()


def u16(number):
    return number.to_bytes(2, "big")


def u32(number):
    return number.to_bytes(4, "big")


def digits(ots, digest):
    """Where a message's chains stand (sections 3.1.3 and 4.4)."""
    width, _, shift = OTS[ots]
    split = lambda data: [byte >> part & (1 << width) - 1 for byte in data for part in range(8 - width, -1, -width)]
    sums = sum((1 << width) - 1 - digit for digit in split(digest))
    return (split(digest) + split(u16(sums << shift)))[: OTS[ots][1]]


def chain(id, leaf, number, value, first, end):
    front = id + u32(leaf) + u16(number)
    for step in range(first, end):
        value = hashlib.sha256(front + bytes([step]) + value).digest()
    return value


def start(seed, id, leaf, number):
    """Of a chain, by the pseudorandom derivation of appendix A."""
    return sha(id, u32(leaf), u16(number), b"\xff", seed)


def ends_digest(id, leaf, ends):
    return sha(id, u32(leaf), PBLC, *ends)


@lru_cache(maxsize=None)
def tree(seed, id, height, ots):
    """Its nodes by number, the root at 1 (section 5.3)."""
    width, chains, _ = OTS[ots]
    nodes = [b""] * (2 << height)
    for leaf in range(1 << height):
        ends = [chain(id, leaf, i, start(seed, id, leaf, i), 0, (1 << width) - 1) for i in range(chains)]
        node = (1 << height) + leaf
        nodes[node] = sha(id, u32(node), LEAF, ends_digest(id, leaf, ends))
    for node in range((1 << height) - 1, 0, -1):
        nodes[node] = sha(id, u32(node), INTR, nodes[2 * node], nodes[2 * node + 1])
    return nodes


class Key:
    """An LMS key."""

    def __init__(self, seed, id, height, ots):
        self.seed, self.id, self.height, self.ots = seed, id, height, ots

    def public(self):
        return u32(5 if self.height == 5 else 6) + u32(self.ots) + self.id + tree(self.seed, self.id, self.height, self.ots)[1]

    def sign(self, leaf, message):
        c = start(self.seed, self.id, leaf, 0xFFFD)
        places = digits(self.ots, sha(self.id, u32(leaf), MESG, c, message))
        values = [chain(self.id, leaf, i, start(self.seed, self.id, leaf, i), 0, place) for i, place in enumerate(places)]
        nodes, node, path = tree(self.seed, self.id, self.height, self.ots), (1 << self.height) + leaf, []
        while node > 1:
            path.append(nodes[node ^ 1])
            node //= 2
        return u32(leaf) + u32(self.ots) + c + b"".join(values) + u32(5 if self.height == 5 else 6) + b"".join(path)

    def lower(self, leaf):
        """The key under this leaf."""
        return Key(sha(b"\3", self.seed, u32(leaf)), sha(b"\4", self.seed, u32(leaf))[:16], self.height, self.ots)

    def sign_below(self, number, message):
        """The signature of two levels with this number (section 6.2)."""
        leaf, below = divmod(number, 1 << self.height)
        lower = self.lower(leaf)
        public = lower.public()
        return u32(1) + self.sign(leaf, public) + public + lower.sign(below, message)


def party_key(seed, party, height, ots):
    """The key of a party, five bytes, in a group that is made from a seed."""
    return Key(sha(b"\1", seed, party), sha(b"\2", seed, party)[:16], height, ots)


def lms_length(public):
    """How long a signature by this LMS key is."""
    return 8 + 32 + OTS[int.from_bytes(public[4:8], "big")][1] * 32 + 4 + HEIGHTS[int.from_bytes(public[:4], "big")] * 32


def lms_verifies(public, message, signature):
    """Section 5.4.2."""
    kind, ots = int.from_bytes(public[:4], "big"), int.from_bytes(public[4:8], "big")
    if kind not in HEIGHTS or ots not in OTS or len(signature) != lms_length(public):
        return False
    (width, chains, _), height, id = OTS[ots], HEIGHTS[kind], public[8:24]
    leaf, at = int.from_bytes(signature[:4], "big"), 40 + 32 * chains
    if signature[4:8] != u32(ots) or signature[at : at + 4] != u32(kind) or leaf >= 1 << height:
        return False
    places = digits(ots, sha(id, u32(leaf), MESG, signature[8:40], message))
    values = [signature[40 + 32 * i : 72 + 32 * i] for i in range(chains)]
    ends = [chain(id, leaf, i, values[i], places[i], (1 << width) - 1) for i in range(chains)]
    node = (1 << height) + leaf
    value = sha(id, u32(node), LEAF, ends_digest(id, leaf, ends))
    for step in range(height):
        other = signature[at + 4 + 32 * step : at + 36 + 32 * step]
        value = sha(id, u32(node // 2), INTR, *((other, value) if node % 2 else (value, other)))
        node //= 2
    return value == public[24:]


def verifies(public, message, signature):
    """Section 6.3, for two levels."""
    if len(public) != 60 or public[:4] != u32(2) or signature[:4] != u32(1):
        return False
    above = lms_length(public[4:]) if int.from_bytes(public[4:8], "big") in HEIGHTS and int.from_bytes(public[8:12], "big") in OTS else 0
    upper, lower, last = signature[4 : 4 + above], signature[4 + above : 60 + above], signature[60 + above :]
    return len(lower) == 56 and lms_verifies(public[4:], lower, upper) and lms_verifies(lower, message, last)
