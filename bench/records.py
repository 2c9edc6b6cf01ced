"""Keys, certificates, messages and streams as docs/FORMATS.md has them, for scripts that write documents.

An outsider of a document writes on links, and acts for silent hosts. This module spells what such an outsider can
write: with the secret of a silent host all of it is good, with a stolen secret it is forged.
"""
import functools
import hashlib

FOREVER = 2**64 - 1
OTS = {3: (4, 67, 4), 4: (8, 34, 0)}
HEIGHT = {5: 5, 6: 10}


def digest(*parts):
    return hashlib.sha256(b"".join(parts)).digest()


def u8(n):
    return n.to_bytes(1, "big")


def u16(n):
    return n.to_bytes(2, "big")


def u32(n):
    return n.to_bytes(4, "big")


def u64(n):
    return n.to_bytes(8, "big")


def digits(value, width):
    """The digits of a digest and of its checksum, of so many bits each."""
    def split(data):
        return [b for b in data] if width == 8 else [d for b in data for d in (b >> 4, b & 15)]
    _, chains, shift = OTS[3 if width == 4 else 4]
    found = split(value)
    checksum = sum((1 << width) - 1 - d for d in found) << shift
    return (found + split(u16(checksum)))[:chains]


class Key:
    """The key of a secret (32 bytes) and an index, of types such as 5.3. Index 0 is a host's identity key, j its lane j's."""

    def __init__(self, secret, index=0, types="5.3"):
        self.lms, self.ots = (int(part) for part in types.split("."))
        self.seed = digest(b"dstar seed", secret, u32(index))
        self.name = digest(b"dstar name", secret, u32(index))[:16]
        self.width, self.chains, _ = OTS[self.ots]
        self.height = HEIGHT[self.lms]
        self.tree = self.nodes()
        self.public = u32(self.lms) + u32(self.ots) + self.name + self.tree[1]

    def start(self, leaf, chain):
        return digest(self.name, u32(leaf), u16(chain), b"\xff", self.seed)

    def walk(self, leaf, chain, value, first, until):
        before = self.name + u32(leaf) + u16(chain)
        for step in range(first, until):
            value = hashlib.sha256(before + bytes((step,)) + value).digest()
        return value

    def nodes(self):
        count, last = 1 << self.height, (1 << self.width) - 1
        tree = [b""] * (2 * count)
        for leaf in range(count):
            ends = [self.walk(leaf, chain, self.start(leaf, chain), 0, last) for chain in range(self.chains)]
            one_time = digest(self.name, u32(leaf), u16(0x8080), *ends)
            tree[count + leaf] = digest(self.name, u32(count + leaf), u16(0x8282), one_time)
        for node in range(count - 1, 0, -1):
            tree[node] = digest(self.name, u32(node), u16(0x8383), tree[2 * node], tree[2 * node + 1])
        return tree

    def sign(self, leaf, message):
        """The signature of a message at a leaf."""
        random = digest(self.name, u32(leaf), u16(0xfffd), b"\xff", self.seed)
        hashed = digest(self.name, u32(leaf), u16(0x8181), random, message)
        ends = [self.walk(leaf, chain, self.start(leaf, chain), 0, digit)
                for chain, digit in enumerate(digits(hashed, self.width))]
        node, path = (1 << self.height) + leaf, []
        while node > 1:
            path.append(self.tree[node ^ 1])
            node >>= 1
        return b"".join([u32(leaf), u32(self.ots), random, *ends, u32(self.lms), *path])


@functools.lru_cache(maxsize=None)
def key(secret, index=0, types="5.3"):
    """The key, made once."""
    return Key(secret, index, types)


def category(creator, kind, number):
    """A category: the creator's key, 0 for secrecy or 1 for integrity, and its number."""
    return creator + u8(kind) + u64(number)


def label(categories):
    """A label of categories in bytes, each once and in order."""
    members = sorted(set(categories))
    return u8(len(members)) + b"".join(members)


def signed(part, signature):
    return part + u16(len(signature)) + signature


def delegation(about, to, by, signature, start=0, until=FOREVER):
    """A delegation of a category to a key by a key; `signature` is bytes, or a call that signs the part before it."""
    part = u8(1) + about + to + u64(start) + u64(until) + by
    return signed(part, signature(part) if callable(signature) else signature)


def address(exporter, where, signature, start=0, until=FOREVER):
    part = u8(2) + exporter + u8(len(where)) + where + u64(start) + u64(until)
    return signed(part, signature(part) if callable(signature) else signature)


def lane_cert(exporter, lane, receiver, of, lane_key, signature, start=0, until=FOREVER):
    part = u8(3) + exporter + u32(lane) + receiver + label(of) + lane_key + u64(start) + u64(until)
    return signed(part, signature(part) if callable(signature) else signature)


def message(to, slot, of, own=(), clear=(), certs=(), payload=b""):
    return b"".join([u8(6), to, u32(slot), label(of), label(own), label(clear), u8(len(certs)),
                     *(u16(len(cert)) + cert for cert in certs), u32(len(payload)), payload])


def hello(cert):
    return b"DSX1" + u16(len(cert)) + cert


def frame(number, messages, signature, tag=4, count=None, length=None):
    """A frame of messages in bytes; count and length are what they are unless others are given."""
    body = b"".join(u32(len(one)) + one for one in messages)
    part = b"".join([u8(tag), u32(number), u16(len(messages) if count is None else count),
                     u32(len(body) if length is None else length), body])
    return signed(part, signature(part) if callable(signature) else signature)
