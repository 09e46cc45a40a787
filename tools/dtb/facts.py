"""What a device tree says of its cores, their power domains, and the words of their idle states."""
from collections import namedtuple

from .reader import Fault, Tree

# A word of CPU_SUSPEND: what the nodes that have it are called, and the level if a power domain says it.
Word = namedtuple("Word", "word name level")
WORD = "arm,psci-suspend-param"


class NoBoard(Exception):
    """The tree is of no machine whose cores PSCI starts; why."""


class Core:
    """A core: its MPIDR, and the power domains over it, from its own up."""

    def __init__(self, mpidr, node, domains):
        self.mpidr, self.node, self.domains = mpidr, node, domains


class Facts:
    """The facts of a device tree, and beside them what is odd."""

    def __init__(self, data, method="psci"):
        self.tree, self.odd, self.method = Tree(data), [], method
        root = self.tree.root
        self.model = root.string("model") or ", ".join(root.strings("compatible")) or "a machine without a name"
        self.psci = [it for it in root if it.is_there()
                     and any(name.startswith("arm,psci") for name in it.strings("compatible"))]
        self.cores = self.cores_of(root.child("cpus"))
        self.has_domains = all(it.domains for it in self.cores)
        if not self.has_domains:
            for core in self.cores:
                core.domains = []

    # ---- cores

    def cores_of(self, cpus):
        if cpus is None:
            raise NoBoard("it has no node of its cores")
        nodes = [it for it in cpus.nodes if it.string("device_type") == "cpu" or it.base == "cpu"]
        kept = [it for it in nodes if not (it.string("status") or "").startswith("fail")]
        self.odd += [f"{it.name} has failed, and is left out" for it in nodes if it not in kept]
        methods = {it.string("enable-method") or "no enable-method" for it in kept}
        if methods != {self.method}:
            hint = "; --spin-table describes it" if methods == {"spin-table"} else ""
            raise NoBoard(f"its cores are started by {' and '.join(sorted(methods))}{hint}" if kept else "it has no core")
        if not self.psci and self.method == "psci":
            self.odd.append("the tree has no node of PSCI, which a bootloader has to add")
        width = (cpus.cells("#address-cells") or [1])[0]
        return [Core(self.mpidr(it, width), it, self.domains_of(it)) for it in kept]

    @staticmethod
    def mpidr(node, width):
        cells = node.cells("reg")[:width]
        if not cells:
            raise Fault(f"{node.path} has no reg")
        return sum(cell << 32 * at for at, cell in enumerate(reversed(cells)))

    def domains_of(self, node):
        """The power domains of PSCI that a core is in, from its own up."""
        named = self.tree.references(node, "power-domains", "#power-domain-cells")
        names = node.strings("power-domain-names")
        found = named[names.index("psci")] if "psci" in names else next(iter(named), None)
        domains = []
        while found is not None and found.parent in self.psci and found not in domains:
            domains.append(found)
            found = next(iter(self.tree.references(found, "power-domains", "#power-domain-cells")), None)
        return domains

    # ---- words

    def words(self, node, name, level=None):
        """The words of the idle states that a node names, those that are not disabled."""
        found = []
        for state in self.tree.references(node, name):
            cells = state.cells(WORD)
            if not state.is_there():
                continue
            if not cells:
                self.odd.append(f"{state.name} has no {WORD}, and is left out")
                continue
            called = " ".join([state.base, *state.strings("idle-state-name")])
            found.append(Word(cells[0], called, level))
        return found

    # ---- what else there is

    def functions(self):
        """The functions that the node of PSCI says are there, and those that it says nothing of."""
        names = {it for node in self.psci for it in node.strings("compatible")}
        # the oldest binding has a number for each function that is there
        if names == {"arm,psci"}:
            ids = ("cpu_suspend", "cpu_off", "cpu_on")
            return [it for it in ids if any(it in node.properties for node in self.psci)]
        return ["cpu_suspend", "cpu_off", "cpu_on", "system_off", "system_reset"]

    def memory(self):
        """The pieces of memory that the tree has, and not of secure memory, which is disabled: first address and
        the one behind."""
        root, found = self.tree.root, []
        width, size = ((root.cells(name) or [default])[0]
                       for name, default in (("#address-cells", 2), ("#size-cells", 1)))
        for node in root.nodes:
            is_memory = node.string("device_type") == "memory" or node.base == "memory"
            if not is_memory or not node.is_there():
                continue
            cells = node.cells("reg")
            for at in range(0, len(cells) - width - size + 1, width + size):
                first, many = (sum(cell << 32 * place for place, cell in enumerate(reversed(part)))
                               for part in (cells[at:at + width], cells[at + width:at + width + size]))
                if many:
                    found.append((first, first + many))
        return found
