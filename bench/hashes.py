"""Names that hash alike where a hasher has no secret."""
import itertools
import struct


def alike(count):
    """So many names that a hash without a secret, the one that the toolchain's maps have by default, takes to one number.

    The hash multiplies two numbers of 8 bytes at a time, the first of which is joined by xor with what came before. Where
    the first is that very number the product is 0, and the second doesn't matter.
    """
    mask = (1 << 64) - 1
    factor = 0x9E37_79B9_7F4A_7C15

    def fold(left, right):
        product = left * right
        return product & mask ^ product >> 64

    # The number of the kind of the name is hashed first, then the text. It has six parts of 8 bytes.
    begun = fold(0x243F_6A88_85A3_08D3, factor ^ 16) + 48 & mask
    for tried in itertools.count():
        first = b"%016d" % tried
        left, right = struct.unpack("<2Q", first)
        try:
            third = struct.pack("<Q", fold(left ^ begun, right ^ factor)).decode()
        except UnicodeDecodeError:
            continue
        return [first.decode() + third + "%08d" % number + "0" * 16 for number in range(count)]


def crowded(count):
    """So many names of lifetimes that the hasher of the kit's sets takes to an eighth of each table, where it isn't fed a key.

    That is SipHash-1-3 with the keys 0, whose halves are joined by xor. A table of a power of two of groups finds a name's group by the
    lowest bits, and goes on from there to the next one that isn't full. So names of the first eighth fill the table from its start, and
    each new one passes nearly all groups that are full.
    """
    mask = (1 << 64) - 1

    def turned(word, bits):
        return (word << bits | word >> 64 - bits) & mask

    def mix(v0, v1, v2, v3):
        v0 = v0 + v1 & mask
        v2 = v2 + v3 & mask
        v1 = turned(v1, 13) ^ v0
        v3 = turned(v3, 16) ^ v2
        v2 = v2 + v1 & mask
        v0 = turned(v0, 32) + v3 & mask
        return v0, turned(v1, 17) ^ v2, turned(v2, 32), turned(v3, 21) ^ v0

    def fed(state, word):
        v0, v1, v2, v3 = mix(*state[:3], state[3] ^ word)
        return v0 ^ word, v1, v2, v3

    # The number of the kind of the name is hashed first, then its seven bytes and one that ends it.
    begun = fed((0x736F_6D65_7073_6575, 0x646F_7261_6E64_6F6D, 0x6C79_6765_6E65_7261, 0x7465_6462_7974_6573), 0)
    groups = 1
    while 9 * groups < count:
        groups *= 2
    names = []
    for tried in itertools.product("abcdefghijklmnopqrstuvwxyz", repeat=6):
        name = "'" + "".join(tried)
        v0, v1, v2, v3 = fed(fed(begun, int.from_bytes(name.encode() + b"\xff", "little")), 16 << 56)
        v2 ^= 0xFF
        for _ in range(3):
            v0, v1, v2, v3 = mix(v0, v1, v2, v3)
        found = v0 ^ v1 ^ v2 ^ v3
        if (found ^ found >> 32) % groups < max(groups // 8, 1):
            names.append(name)
            if len(names) == count:
                return names
