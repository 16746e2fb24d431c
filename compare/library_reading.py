"""A library of DOS read by the standard's words (TIS OMF 1.1, Appendix 2), and written by them: nothing of the code of
doslib is used. `check` says what is wrong with a library that should have these members."""

BLOCK, BUCKETS = 512, 37
PRIMES = [n for n in range(2, 252) if all(n % d for d in range(2, n))]


def left(word):
    return ((word << 2) | (word >> 14)) & 0xFFFF


def right(word):
    return ((word >> 2) | (word << 14)) & 0xFFFF


def hashes(name, blocks):
    """The first block, the step of blocks, the first bucket and the step of buckets."""
    text = bytes([len(name)]) + name
    block = block_step = bucket = bucket_step = 0
    for at in range(len(name)):
        front, back = text[at] | 0x20, text[len(name) - at] | 0x20
        block, bucket_step = left(block) ^ front, right(bucket_step) ^ front
        block_step, bucket = left(block_step) ^ back, right(bucket) ^ back
    return block % blocks, block_step % blocks or 1, bucket % BUCKETS, bucket_step % BUCKETS or 1


def word(data, at):
    return data[at] | data[at + 1] << 8


def look_up(dictionary, name):
    """The page of a name, or None."""
    blocks = len(dictionary) // BLOCK
    block, block_step, first, bucket_step = hashes(name, blocks)
    for _ in range(blocks):
        data = dictionary[BLOCK * block:BLOCK * (block + 1)]
        bucket = first
        for _ in range(BUCKETS):
            if data[bucket] == 0:
                if data[BUCKETS] == 0xFF:
                    break
                return None
            at = 2 * data[bucket]
            if data[at + 1:at + 1 + data[at]] == name:
                return word(data, at + 1 + data[at])
            bucket = (bucket + bucket_step) % BUCKETS
        block = (block + block_step) % blocks
    return None


def enter(dictionary, name, page):
    """Whether a name has room: it goes where the search for it ends."""
    blocks = len(dictionary) // BLOCK
    block, block_step, first, bucket_step = hashes(name, blocks)
    for _ in range(blocks):
        start = BLOCK * block
        bucket = first
        for _ in range(BUCKETS):
            if dictionary[start + bucket] == 0:
                free = dictionary[start + BUCKETS]
                behind = free + (len(name) + 4) // 2
                if behind <= 256:
                    entry = bytes([len(name)]) + name + page.to_bytes(2, "little")
                    dictionary[start + 2 * free:start + 2 * free + len(entry)] = entry
                    dictionary[start + bucket] = free
                    dictionary[start + BUCKETS] = min(behind, 0xFF)
                    return True
                break
            bucket = (bucket + bucket_step) % BUCKETS
        dictionary[start + BUCKETS] = 0xFF
        block = (block + block_step) % blocks
    return False


def dictionary_of(entries):
    """The least dictionary that has room for these names and pages, or None."""
    for blocks in PRIMES:
        empty = bytes(BUCKETS) + b"\x13" + bytes(BLOCK - BUCKETS - 1)
        dictionary = bytearray(empty * blocks)
        if all(enter(dictionary, name, page) for name, page in entries):
            return bytes(dictionary)
    return None


def padded(data, size):
    return data + bytes(-len(data) % size)


def first_names(members, size):
    """The names of members, each a module with the names that it has, by the page of the first that has it."""
    first, page = {}, 1
    for module, names in members:
        for name in names:
            first.setdefault(name, page)
        page += -(-len(module) // size)
    return first, page


def library_of(members, size):
    """The library of members with pages of this size, or None where no dictionary has room for their names."""
    first, behind = first_names(members, size)
    dictionary = dictionary_of(list(first.items()))
    if dictionary is None:
        return None
    end = size * behind
    place = -(-(end + 3) // BLOCK) * BLOCK
    head = b"\xF0" + (size - 3).to_bytes(2, "little") + place.to_bytes(4, "little")
    head += (len(dictionary) // BLOCK).to_bytes(2, "little") + b"\x01"
    body = b"".join(padded(module, size) for module, _ in members)
    rest = place - end - 3
    return padded(head, size) + body + b"\xF1" + rest.to_bytes(2, "little") + bytes(rest) + dictionary


def check(library, members):
    """What is wrong with a library that should have these members, or None; names near theirs aren't found."""
    if library[:1] != b"\xF0":
        return "no header"
    size = word(library, 1) + 3
    if size not in [16 << n for n in range(12)]:
        return f"pages of {size} bytes"
    place = word(library, 3) | word(library, 5) << 16
    blocks = word(library, 7)
    if place % BLOCK or blocks not in PRIMES or len(library) != place + BLOCK * blocks:
        return f"a dictionary of {blocks} blocks at {place}"
    if library[9] != 1 or any(library[10:size]):
        return "the header's flags or padding"
    at = size
    for module, _ in members:
        behind = at + len(padded(module, size))
        if library[at:behind] != padded(module, size):
            return f"the member at {at}"
        at = behind
    if library[at] != 0xF1 or at + 3 + word(library, at + 1) != place or any(library[at + 3:place]):
        return f"the end record at {at}"
    dictionary = library[place:]
    first, _ = first_names(members, size)
    for name, page in first.items():
        if look_up(dictionary, name) != page:
            return f"{name} at {look_up(dictionary, name)} in place of {page}"
        for other in (name + b"x", name[:-1], name.swapcase(), b"?" + name):
            if other not in first and look_up(dictionary, other) is not None:
                return f"{other} is found"
    return None
