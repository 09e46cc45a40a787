"""Reads a flattened device tree (DTB, versions 16 and 17 of the Devicetree Specification)."""
import struct

MAGIC, VERSIONS = 0xD00DFEED, (16, 17)
BEGIN, END, PROPERTY, NOP, LAST = 1, 2, 3, 4, 9
DEEPEST = 64


class Fault(Exception):
    """The bytes are no device tree; what is wrong with them."""


class Node:
    """A node: its name, its properties as bytes, and the nodes in it."""

    def __init__(self, name, parent=None):
        self.name, self.parent = name, parent
        self.properties, self.nodes = {}, []

    def __iter__(self):
        """This node and all that are in it, in order."""
        yield self
        for node in self.nodes:
            yield from node

    @property
    def path(self):
        return f"{self.parent.path.rstrip('/')}/{self.name}" if self.parent else "/"

    @property
    def base(self):
        """The name without its address."""
        return self.name.partition("@")[0]

    def child(self, base):
        """The first node in it of this name, whatever its address; or nothing."""
        return next((it for it in self.nodes if it.base == base), None)

    def cells(self, name):
        """A property as numbers of 32 bits; none where there is no such property."""
        found = self.properties.get(name, b"")
        if len(found) % 4:
            raise Fault(f"{self.path} has a property {name} of {len(found)} bytes")
        return [it for it, in struct.iter_unpack(">I", found)]

    def strings(self, name):
        """A property as texts; none where there is no such property."""
        found = self.properties.get(name)
        return [it.decode("latin-1") for it in found.rstrip(b"\0").split(b"\0")] if found else []

    def string(self, name):
        return next(iter(self.strings(name)), None)

    def is_there(self):
        """Not disabled."""
        return self.string("status") in (None, "okay", "ok")


class Tree:
    """A whole tree: its root, and nodes by their phandles."""

    def __init__(self, data):
        self.root = Blocks(data).root()
        self.nodes = {}
        for node in self.root:
            for name in ("linux,phandle", "phandle"):
                for handle in node.cells(name)[:1]:
                    self.nodes[handle] = node

    def references(self, node, name, cells=None):
        """The nodes that a property names by their phandles; `cells` is the property of such a node
        that says how many numbers follow its phandle."""
        found, numbers = [], node.cells(name)
        while numbers:
            other = self.nodes.get(numbers[0])
            if other is None:
                raise Fault(f"{node.path} has a property {name} that names no node")
            found.append(other)
            more = (other.cells(cells) or [0])[0] if cells else 0
            numbers = numbers[1 + more:]
        return found


class Blocks:
    """The blocks of the bytes: the structure, and the names of properties."""

    def __init__(self, data):
        if len(data) < 40:
            raise Fault("it is shorter than a header")
        (magic, total, structure, strings, _, version, least, _, strings_size,
         structure_size) = struct.unpack(">10I", data[:40])
        if magic != MAGIC:
            raise Fault("it does not begin like a device tree")
        if version < VERSIONS[0] or least > VERSIONS[1]:
            raise Fault(f"it is of version {version}")
        if total > len(data):
            raise Fault("it is cut off")
        # version 16 does not say how long the structure is
        end = structure + structure_size if version >= 17 else total
        if end > total or strings + strings_size > total:
            raise Fault("a block ends after the end of the file")
        self.structure, self.strings = data[structure:end], data[strings:strings + strings_size]
        self.at = 0

    def number(self):
        if self.at + 4 > len(self.structure):
            raise Fault("its structure ends within a node")
        self.at += 4
        return int.from_bytes(self.structure[self.at - 4:self.at], "big")

    @staticmethod
    def text(block, at):
        end = block.find(b"\0", at)
        if not 0 <= at <= end:
            raise Fault("a name has no end")
        return block[at:end].decode("latin-1")

    def root(self):
        """The root, with all that is in it."""
        root = here = None
        depth = 0
        while True:
            token = self.number()
            if token == BEGIN and depth < DEEPEST and (here or not root):
                name = self.text(self.structure, self.at)
                self.at = self.at + len(name) + 1 + 3 & ~3
                node, depth = Node(name, here), depth + 1
                if here:
                    here.nodes.append(node)
                root, here = root or node, node
            elif token == END and here:
                here, depth = here.parent, depth - 1
            elif token == PROPERTY and here:
                self.property(here)
            elif token == LAST and root and not here:
                return root
            elif token != NOP:
                raise Fault(f"its structure has a token {token} out of place")

    def property(self, node):
        size, name = self.number(), self.number()
        if self.at + size > len(self.structure):
            raise Fault("a property ends after the end of its structure")
        node.properties[self.text(self.strings, name)] = self.structure[self.at:self.at + size]
        self.at = self.at + size + 3 & ~3
