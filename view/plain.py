"""The bytes of a page along a history, as far as the history tells them.

An image may hold bytes before a run, so what a page holds at the start is not known until an event tells
it: a read tells bytes, a zero fill tells that all are zeros, and a page that comes with its data tells
that not all are. What was told once has to stay true. Bytes are kept as one number, the first byte the
highest, and which bytes are meant as a mask with 255 for each.
"""


class Opening:
    """What is known of a page's bytes at the start. `not_zero`, if told, is bytes of which one is not 0."""

    def __init__(self, size):
        self.size, self.all = size, (1 << 8 * size) - 1
        self.known, self.value, self.not_zero = 0, 0, None

    def learn(self, mask, value):
        """Takes in bytes that were not known. False if all are then zeros that were told not all to be."""
        self.known |= mask
        self.value |= value & mask
        if self.not_zero is not None:
            if value & mask & self.not_zero:
                self.not_zero = None
            else:
                self.not_zero &= ~mask
                return self.not_zero != 0
        return True

    def forbid_zeros(self, mask):
        """Takes in that not all bytes of a mask are zeros. False if all are known to be."""
        if self.value & mask:
            return True
        mask &= ~self.known
        self.not_zero = mask if self.not_zero is None else self.not_zero & mask
        return mask != 0


class Bytes:
    """What a page holds at some place. `opened` is the mask of the bytes that are still those of the start."""

    __slots__ = ("opening", "value", "opened")

    def __init__(self, opening, value, opened):
        self.opening, self.value, self.opened = opening, value, opened

    def mask(self, off, length):
        """The mask of a range."""
        return ((1 << 8 * length) - 1) << 8 * (self.opening.size - off - length)

    def written(self, off, data):
        """The page with other bytes from an offset on."""
        mask = self.mask(off, len(data))
        value = int.from_bytes(data, "big") << 8 * (self.opening.size - off - len(data))
        return Bytes(self.opening, self.value & ~mask | value, self.opened & ~mask)

    def cleared(self):
        """The page with zeros alone."""
        return Bytes(self.opening, 0, 0)

    def shown(self, off, length):
        """The bytes of a range as hex, with two dots for each that is not known."""
        size = self.opening.size
        value = (self.value | self.opening.value & self.opened).to_bytes(size, "big")[off:off + length]
        known = (self.opening.all & ~self.opened | self.opening.known).to_bytes(size, "big")[off:off + length]
        return "".join("%02x" % byte if sure else ".." for byte, sure in zip(value, known))

    def tell(self, off, data):
        """Takes in that a range has these bytes. False if it is known to have others."""
        mask = self.mask(off, len(data))
        value = int.from_bytes(data, "big") << 8 * (self.opening.size - off - len(data))
        sure = mask & (self.opening.all & ~self.opened | self.opening.known)
        if (value ^ (self.value | self.opening.value & self.opened)) & sure:
            return False
        unknown = mask & ~sure
        return not unknown or self.opening.learn(unknown, value)

    def tell_zeros(self):
        """Takes in that all bytes are zeros. False if that cannot be."""
        return self.tell(0, bytes(self.opening.size))

    def tell_not_zeros(self):
        """Takes in that not all bytes are zeros. False if all are known to be."""
        return self.value != 0 or self.opening.forbid_zeros(self.opened)


def at_start(size):
    """A page of which nothing is known."""
    opening = Opening(size)
    return Bytes(opening, 0, opening.all)
