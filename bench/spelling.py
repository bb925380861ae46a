"""Numbers as full files spell them."""


def uvarint(n):
    """Seven bits a byte, the lowest first; each byte but the last has the top bit set."""
    out = bytearray()
    while n >= 128:
        out.append(n & 127 | 128)
        n >>= 7
    out.append(n)
    return bytes(out)


def varint(x):
    return uvarint(2 * x if x >= 0 else -2 * x - 1)
