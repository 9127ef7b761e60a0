"""Damaged copies of good bytes and rows."""


def truncations(data):
    """Every proper front part."""
    return [data[:length] for length in range(len(data))]


def byte_changes(data):
    """Every copy with one byte changed."""
    return [data[:at] + bytes([byte]) + data[at + 1:]
            for at in range(len(data)) for byte in range(256) if byte != data[at]]


def one_byte_changed(rng, data):
    """A copy with one byte changed."""
    at = rng.randrange(len(data))
    values = [data[at] ^ 1, (data[at] + 1) % 256, (data[at] - 1) % 256, data[at] ^ 0x80,
              0, 3, 0x10, 0x30, 0x34, 0x50, 0x53, 0x61, rng.randrange(256)]
    return data[:at] + bytes([rng.choice(values)]) + data[at + 1:]


def byte_taken(rng, data):
    """A copy with one byte less."""
    at = rng.randrange(len(data))
    return data[:at] + data[at + 1:]


def byte_put(rng, data):
    """A copy with one byte more."""
    at = rng.randrange(len(data) + 1)
    return data[:at] + bytes([rng.choice([0, 1, 0x10, 0x61, rng.randrange(256)])]) + data[at:]


def damaged(rng, data):
    """A copy damaged in some way."""
    if not data:
        return bytes([rng.randrange(256)])
    return rng.choice([one_byte_changed, one_byte_changed, byte_taken, byte_put])(rng, data)


def perhaps_damaged(rng, chance, data):
    """The data, or with this chance a damaged copy."""
    return damaged(rng, data) if rng.random() < chance else data
