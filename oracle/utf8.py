"""UTF-8 by the grammar of RFC 3629, section 4, production by production: a second judge
beside Python's own decoder.

    UTF8-octets = *( UTF8-char )
    UTF8-char   = UTF8-1 / UTF8-2 / UTF8-3 / UTF8-4
    UTF8-1      = %x00-7F
    UTF8-2      = %xC2-DF UTF8-tail
    UTF8-3      = %xE0 %xA0-BF UTF8-tail / %xE1-EC 2( UTF8-tail ) /
                  %xED %x80-9F UTF8-tail / %xEE-EF 2( UTF8-tail )
    UTF8-4      = %xF0 %x90-BF 2( UTF8-tail ) / %xF1-F3 3( UTF8-tail ) /
                  %xF4 %x80-8F 2( UTF8-tail )
    UTF8-tail   = %x80-BF
"""

TAIL = (0x80, 0xBF)

# Each alternative of UTF8-char: the range of each of its bytes.
CHARACTERS = (
    ((0x00, 0x7F),),
    ((0xC2, 0xDF), TAIL),
    ((0xE0, 0xE0), (0xA0, 0xBF), TAIL),
    ((0xE1, 0xEC), TAIL, TAIL),
    ((0xED, 0xED), (0x80, 0x9F), TAIL),
    ((0xEE, 0xEF), TAIL, TAIL),
    ((0xF0, 0xF0), (0x90, 0xBF), TAIL, TAIL),
    ((0xF1, 0xF3), TAIL, TAIL, TAIL),
    ((0xF4, 0xF4), (0x80, 0x8F), TAIL, TAIL),
)

# The bits of a first byte that belong to the code point, by the character's length (RFC
# 3629, section 3); a tail has six.
FIRST_BITS = {1: 0x7F, 2: 0x1F, 3: 0x0F, 4: 0x07}
TAIL_BITS = 0x3F


def character_at(octets, at):
    """How many bytes the character at a place has; 0 where no alternative fits."""
    for ranges in CHARACTERS:
        some = octets[at:at + len(ranges)]
        if len(some) == len(ranges) and all(
            low <= byte <= high for byte, (low, high) in zip(some, ranges)
        ):
            return len(ranges)
    return 0


def decoded(octets):
    """The code points of some bytes; None where they are no UTF8-octets."""
    at, found = 0, []
    while at < len(octets):
        size = character_at(octets, at)
        if size == 0:
            return None
        point = octets[at] & FIRST_BITS[size]
        for byte in octets[at + 1:at + size]:
            point = point << 6 | byte & TAIL_BITS
        found.append(point)
        at += size
    return found
