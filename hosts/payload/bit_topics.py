"""Lists in which each bit of each register of each function is set in a call whose answer, or whose entry, is another
one without it. `bits` plants a fault for each bit, and sees whether they show it.

Where a bit does not count, as one of the upper half of a register of an SMC32 call, it stands above what would be
something else if it reached what counts: the bit 32 below it, or the type of a reset.
"""
BITS, LOW, HIGH = range(64), range(32), range(32, 64)
BOTH = ("64", "32")
# where the far entry points are beside P (places.c): one for each bit that an address in the memory may have
PLACES = [(256 * bit + 0x80) * (bit < 6) + 2**bit for bit in range(2, 29)]
# what a function is called with, if it has arguments, so that it is not refused
ARGUMENTS = {"CPU_ON": "1 P 5", "AFFINITY_INFO": "0 0", "NODE_HW_STATE": "0 0", "FEATURES": "VERSION",
             "SET_SUSPEND_MODE": "0", "CPU_SUSPEND": "1 P 5", "SYSTEM_SUSPEND": "P 5", "SYSTEM_RESET2": "0 0"}
WORDS = {"VERSION": 0x84000000, "CPU_SUSPEND_32": 0x84000001, "CPU_SUSPEND_64": 0xC4000001, "CPU_OFF": 0x84000002,
         "CPU_ON_32": 0x84000003, "CPU_ON_64": 0xC4000003, "AFFINITY_INFO_32": 0x84000004,
         "AFFINITY_INFO_64": 0xC4000004, "MIGRATE_INFO_TYPE": 0x84000006, "SYSTEM_OFF": 0x84000008,
         "SYSTEM_RESET": 0x84000009, "FEATURES": 0x8400000A, "NODE_HW_STATE_32": 0x8400000D,
         "NODE_HW_STATE_64": 0xC400000D, "SYSTEM_SUSPEND_32": 0x8400000E, "SYSTEM_SUSPEND_64": 0xC400000E,
         "SET_SUSPEND_MODE": 0x8400000F, "SYSTEM_RESET2_32": 0x84000012, "SYSTEM_RESET2_64": 0xC4000012}
# all that others have on these numbers, too: nothing is called there
TAKEN = {*WORDS.values(), *(base + number for base in (0x84000000, 0xC4000000) for number in range(32))}
CORE_1_ON = ["0 call CPU_ON_64 1 E1 0x11", "0 await 1 1"]
ENDS = ("CPU_OFF", "CPU_SUSPEND", "SYSTEM_SUSPEND", "SYSTEM_OFF", "SYSTEM_RESET", "SYSTEM_RESET2")


def plain(name):
    return name.removesuffix("_32").removesuffix("_64")


def statuses(name):
    """A target and a level, of AFFINITY_INFO or NODE_HW_STATE: core 0 is ON, the others are OFF."""
    targets = [f"0 call {name}_{width} {2**bit:#x} 0" for width in BOTH for bit in BITS]
    levels = [f"0 call {name}_{width} {target} {2**bit:#x}" for width in BOTH for target in "01" for bit in BITS]
    return targets + levels


def visits(width, high):
    """Entry points and context ids, with a bit of the upper half of each register, or without."""
    return [f"0 visit CPU_ON_{width} {1 + above:#x} P+{PLACES[at % len(PLACES)] + above:#x} {2**at + above:#x}"
            for at in (LOW if width == "32" else BITS) for above in [2**(32 + at) if high else 0]]


def on(width):
    """Targets and entry points that are none, but for one bit; the third core is lost where it takes one."""
    wide = BITS if width == "64" else LOW
    refused = [f"0 call CPU_ON_{width} {1 ^ 2**bit:#x} P 5" for bit in wide[2:]]
    refused += [f"0 call CPU_ON_{width} 3 P+{2**bit:#x} 5" for bit in (0, 1, *wide[29:])]
    return [*visits(width, False), f"0 visit CPU_ON_{width} 3 P -1", *refused]


def on_high():
    return [f"0 call CPU_ON_32 {2**bit:#x} P 5" for bit in HIGH] + visits("32", True)


def suspend(width):
    """Power states that are none but for one bit, and entries by a power-down."""
    states = [f"0 sleep CPU_SUSPEND_{width} {1 ^ 2**bit if bit else 1:#x} P 5 for 100" for bit in BITS]
    down = f"1 sleep CPU_SUSPEND_{width} 0x10003"
    wide = BITS if width == "64" else LOW
    refused = [f"{down} P+{2**bit:#x} 5 for 100" for bit in (0, 1, *wide[29:])]
    entries = [f"{down} P+{PLACES[at % len(PLACES)]:#x} {2**at:#x} for 100" for at in wide]
    return [*states, *CORE_1_ON, *refused, *entries]


def suspend_high():
    return CORE_1_ON + [f"1 sleep CPU_SUSPEND_32 0x10003 P+{PLACES[at % len(PLACES)] + 2**(32 + at):#x} "
                        f"{2**at + 2**(32 + at):#x} for 100" for at in LOW]


def system_suspend(width):
    sleep, wide = f"0 sleep SYSTEM_SUSPEND_{width}", BITS if width == "64" else LOW
    refused = [f"{sleep} P+{2**bit:#x} 5 for 100" for bit in (0, 1, *wide[29:])]
    return refused + [f"{sleep} P+{PLACES[at % len(PLACES)]:#x} {2**at:#x} for 100" for at in wide]


def system_suspend_high():
    return [f"0 sleep SYSTEM_SUSPEND_32 P+{PLACES[at % len(PLACES)] + 2**(32 + at):#x} {2**at + 2**(32 + at):#x} for 100"
            for at in LOW]


def features():
    return [f"0 call FEATURES {word ^ 2**bit:#x}" for word in (0x84000000, 0x84000001, 0xC4000003) for bit in BITS]


def mode():
    """In the mode of a bit that is lost or counts, the last suspend has another answer."""
    asks = ["0 sleep CPU_SUSPEND_64 0x1000011 0 0 for 100", "0 call SET_SUSPEND_MODE 0"]
    return [*(f"0 call SET_SUSPEND_MODE {2**bit:#x}" for bit in BITS if bit), *CORE_1_ON,
            "0 call SET_SUSPEND_MODE 0x100000000", *asks, "0 call SET_SUSPEND_MODE 1", *asks]


def reset(width):
    """Types that are none but for one bit, and cookies that would make a right one of such a type."""
    types = [f"0 call SYSTEM_RESET2_{width} {2**bit | 2**(bit % 32):#x} 0" for bit in BITS]
    cookies = [f"0 call SYSTEM_RESET2_{width} {2**(bit % 32):#x} {2**bit:#x}" for bit in BITS]
    return sorted(types + cookies, key=lambda line: int(line.split()[3], 0) >> 31 & 1)


def words(names):
    """Words of no function, but for one bit, with what the function would take; and words with a bit above."""
    made = []
    for name, word in WORDS.items():
        call = f"0 visit {{:#x}} {ARGUMENTS['CPU_ON']}" if plain(name) == "CPU_ON" else (
            f"0 call {{:#x}} {ARGUMENTS.get(plain(name), '0')}")
        if plain(name) not in names:
            continue
        made += [call.format(word | 2**bit) for bit in LOW if not word >> bit & 1 and word | 2**bit not in TAKEN]
        if plain(name) not in ENDS:
            made += [call.format(word | 2**bit) for bit in HIGH]
    return made


def calls():
    """With PSCI_FEATURES on numbers of others, too: they take no such word."""
    others = [f"0 call {WORDS['FEATURES'] ^ 2**bit:#x} VERSION" for bit in (0, 4, 30)]
    return words([plain(it) for it in WORDS if plain(it) not in ENDS]) + others


def going():
    """The same of those that mostly don't come back."""
    above = [f"0 visit CPU_ON_64 1 P 5 by {WORDS['CPU_OFF'] + 2**bit:#x}" for bit in HIGH]
    asleep = [f"0 sleep {WORDS[name] + 2**bit:#x} {ARGUMENTS[plain(name)]} for 100" for name in WORDS
              if plain(name) in ("CPU_SUSPEND", "SYSTEM_SUSPEND") for bit in HIGH]
    return [*words(ENDS), *above, *asleep, f"0 stop {WORDS['SYSTEM_OFF'] + (2**32 - 1 << 32):#x}"]


def lives():
    """Resets with all bits above; where one comes back, the machine goes off."""
    made = []
    for name in ("SYSTEM_RESET", "SYSTEM_RESET2_32", "SYSTEM_RESET2_64"):
        made += ["0 call VERSION", f"0 stop {WORDS[name] + (2**32 - 1 << 32):#x} 0 0", "0 stop SYSTEM_OFF", "reset"]
    return [*made, "0 call VERSION"]


def topics():
    whole = {"affinity": statuses("AFFINITY_INFO"), "hardware-state": statuses("NODE_HW_STATE"),
             "on-high": on_high(), "suspend-high": suspend_high(), "system-suspend-high": system_suspend_high(),
             "features": features(), "mode": mode(), "calls": calls(), "going": going(), "lives": lives()}
    for name, it in (("on", on), ("suspend", suspend), ("system-suspend", system_suspend), ("reset", reset)):
        whole.update({f"{name}-{width}": it(width) for width in BOTH})
    return {f"bits-{name}": lines for name, lines in whole.items()}
