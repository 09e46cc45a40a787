"""Numbers and texts, packed for a page: variable-length numbers, deflated and in base 64."""
import base64
import zlib


class Stream:
    """Bytes that are compressed as they come."""

    def __init__(self):
        self.deflate, self.waiting, self.done = zlib.compressobj(6), bytearray(), bytearray()

    def byte(self, value):
        self.waiting.append(value)

    def number(self, value):
        """A number from 0 up: seven bits a byte, the lowest first, and bit 7 where more follow."""
        while value > 127:
            self.waiting.append(value & 127 | 128)
            value >>= 7
        self.waiting.append(value)

    def text(self, value):
        self.waiting += value.encode()

    def flush(self):
        """Compresses what waits."""
        self.done += self.deflate.compress(bytes(self.waiting))
        self.waiting.clear()

    def packed(self):
        """All of it, as text."""
        self.flush()
        return base64.b64encode(bytes(self.done) + self.deflate.flush()).decode()
