#!/usr/bin/env python3
"""The lists of calls, by topic: topics.py prints their names, topics.py NAME a list.

`assemble.py --help` has the form of a line. A list names cores 0 to 3 of a board of four in a row.
"""
import sys

import bit_topics

# bits that belong to no core or level, and values at the edges of a register
TARGETS = ("0", "1", "3", "4", "7", "0x100", "0x101", "0x10000", "0x1000000", "0x40000000", "0x80000000", "0x80000001",
           "0xffffff", "0xffffffff", "0x100000000", "0x100000001", "0xffffffff00000000", "-1")
LEVELS = ("2", "3", "4", "255", "0xffffffff", "0x100000000", "0x100000001")
ENTRIES = ("0", "2", "3", "E0+1", "E0+2", "E0+3", "0x09000000", "0x08000000", "0x0e0a0000", "0x3ffffffc",
           "0x80000000", "0x7ffffffd", "0x100000000", "0x8000000000000000", "0xffffffffffffffff", "0xfffffffffffffffc")
# power state words of both formats, good ones of some platform, and some of none
STANDBYS = ("1", "2", "0", "0x80000000", "0x40000000", "0x1000001", "0x1000011", "0x2000111",
            "0x3000000", "0x100000001")
DOWNS = ("0x10000", "0x10002", "0x10003", "0x1010022", "0x1010033", "0x2010333", "0x3010000",
         "0x4010003", "0x40000003", "0x40000033", "0x20000", "0xffffffff")
BOTH = ("64", "32")
OTHERS = ("MIGRATE_32", "MIGRATE_64", "MIGRATE_INFO_TYPE", "0xc4000006", "MIGRATE_INFO_UP_CPU_32",
          "MIGRATE_INFO_UP_CPU_64", "CPU_FREEZE", "CPU_DEFAULT_SUSPEND_32", "STAT_RESIDENCY_32",
          "STAT_RESIDENCY_64", "STAT_COUNT_32", "STAT_COUNT_64", "MEM_PROTECT",
          "MEM_PROTECT_CHECK_RANGE_32", "MEM_PROTECT_CHECK_RANGE_64")
CORE_1_ON = ["0 call CPU_ON_64 1 E1 0x11", "0 await 1 1"]
CORE_1_OFF = ["1 stop CPU_OFF", "0 poll AFFINITY_INFO_64 1 0 until 1"]


def features():
    every = [f"{base + number:#x}" for base in (0x84000000, 0xC4000000) for number in range(32)]
    more = ["0x80000000", "0x80000001", "0x95c1ba60", "0", "1", "0x184000003", "0xffffffff84000000", "0xffffffff"]
    return [f"0 call FEATURES {it}" for it in every + more]


def words():
    """Function words of no function, and with bits above; none of those that do not come back."""
    every = [base + number for base in (0x84000000, 0xC4000000) for number in range(32)
             if number not in (1, 2, 3, 8, 9, 14, 18)]
    more = ["0xc4000002", "0xc4000008", "0xc4000009", "0x84000040", "0xc4000040", "0x8400ffff", "0x184000000",
            "0xffffffff84000000", "0x1c4000004 0", "0x184000004 0", "0x184000006", "0x80000000",
            "0x80000001 0x80000000", "VERSION -1 -1 -1", "0x85000000", "0", "-1"]
    return [f"0 call {it:#x} 0x77 0 0" for it in every] + [f"0 call {it}" for it in more]


def affinity():
    named = [f"0 call AFFINITY_INFO_{width} {it} {level}" for width in BOTH for it in TARGETS for level in "01"]
    leveled = [f"0 call AFFINITY_INFO_{width} {it} {level}" for width in BOTH for it in "01" for level in LEVELS]
    after = [f"0 call AFFINITY_INFO_64 {it} {level}" for it in "012" for level in range(4)]
    return named + leveled + ["0 call CPU_ON_64 1 E1 0x77", "+ 0 delay 1", *after, "0 await 1 1", *after]


def on_targets():
    wild = [f"0 call CPU_ON_{width} {it} E1 {at:#x}" for width in BOTH for at, it in enumerate(TARGETS)
            if it not in ("1", "3", "0x100000001")]
    return wild + ["0 call CPU_ON_64 0 E0", "0 call CPU_ON_32 0 E0", "0 call CPU_ON_64 0x100000001 E1 5",
                   "0 call CPU_ON_64 1 E2 0xfedcba9876543210", "0 await 1 1", "0 call CPU_ON_64 1 E3 9",
                   "0 call AFFINITY_INFO_64 1", "0 call CPU_ON_32 0x100000002 E4 0xfedcba9876543210", "0 await 2 1",
                   "0 call CPU_ON_32 2 E3 9", "1 call VERSION", "2 call VERSION", "2 call CPU_ON_64 3 E15 -1",
                   "2 await 3 1", "3 call AFFINITY_INFO_64 0", "3 call CPU_ON_64 3 E1"]


def on_entry(entry):
    """A wild entry is never come to where it is taken: the core is lost for the rest of the list."""
    return [f"0 call CPU_ON_64 1 {entry} 0x99", "0 call AFFINITY_INFO_64 1", "0 delay 3000", "0 call AFFINITY_INFO_64 1",
            "0 call CPU_ON_64 2 E2 7", "0 await 2 1", "0 call AFFINITY_INFO_64 2"]


def refusals():
    """Calls to which two refusals apply, and more."""
    made = CORE_1_ON + [f"0 call CPU_ON_{width} {target} {entry} 1" for width in BOTH
                        for target in ("0", "1", "0x77") for entry in ("E1", "E1+2", "E1+1")]
    made += [f"0 sleep CPU_SUSPEND_{width} {it} {entry} 1 for 300" for width in BOTH for it in ("0x20000", "0xfcfe0000")
             for entry in ("E1", "E1+2")]
    return made + ["0 sleep SYSTEM_SUSPEND_64 E1+2 1 for 300", "0 sleep SYSTEM_SUSPEND_32 E1+1 1 for 300",
                   *CORE_1_OFF, "0 call AFFINITY_INFO_64 0x77 9", "0 call NODE_HW_STATE_64 0x77 9"]


def on_race():
    made = list(CORE_1_ON)
    for at in range(12):
        made += [f"0 call CPU_ON_64 2 E{at} {0xA00 + at:#x}", f"+ 1 call CPU_ON_64 2 E{(at + 3) % 16} {0xB00 + at:#x}",
                 f"0 await 2 {at + 1}", "0 call AFFINITY_INFO_64 2", "+ 1 call AFFINITY_INFO_64 2", "2 stop CPU_OFF",
                 "0 poll AFFINITY_INFO_64 2 0 until 1", "+ 1 poll AFFINITY_INFO_64 2 0 until 1"]
    return made


def on_twice():
    made = []
    for at in range(8):
        made += [f"0 call CPU_ON_64 2 E{at} {0xA00 + at:#x}", f"0 call CPU_ON_64 2 E{at + 1} {0xB00 + at:#x}",
                 "0 call AFFINITY_INFO_64 2", f"0 call CPU_ON_64 2 E{at + 2} {0xC00 + at:#x}", f"0 await 2 {at + 1}",
                 "0 call AFFINITY_INFO_64 2", "2 stop CPU_OFF", "0 poll AFFINITY_INFO_64 2 0 until 1"]
    return made


def off():
    """A core goes off while others ask about it, and ask it on."""
    made = list(CORE_1_ON)
    for at in range(10):
        made += [f"0 call CPU_ON_64 2 E1 {at}", f"0 await 2 {at + 1}", "2 stop CPU_OFF", "+ 0 call AFFINITY_INFO_64 2",
                 "+ 1 call AFFINITY_INFO_64 2", "0 call NODE_HW_STATE_64 2 0", "1 poll AFFINITY_INFO_64 2 0 until 1",
                 "0 call NODE_HW_STATE_64 2 0"]
    return made + ["0 call CPU_ON_64 2 E1 0x55", "0 await 2 11", "2 stop CPU_OFF", "0 poll CPU_ON_64 2 E2 until 0",
                   "0 await 2 12", "2 call VERSION"]


def standby():
    return [f"0 sleep CPU_SUSPEND_{width} {it} E2 0x5 for 300" for width in BOTH for it in STANDBYS]


def down(word):
    return CORE_1_ON + [f"1 sleep CPU_SUSPEND_64 {word} E3 0x77 for 500", "0 call AFFINITY_INFO_64 1", "0 delay 2000",
                        "1 call VERSION", f"1 sleep CPU_SUSPEND_64 {word} E3+2 0x78 for 500",
                        f"1 sleep CPU_SUSPEND_32 {word} E5 0xf000000000000079 for 500", "1 call VERSION",
                        f"0 sleep CPU_SUSPEND_64 {word} E4 0x66 for 500"]


def system_suspend():
    bad = [f"0 sleep SYSTEM_SUSPEND_{width} {it} 0x88 for 500" for width in BOTH for it in ("E0+1", "E0+3")]
    one = "sleep SYSTEM_SUSPEND_64 E1 0x99 for 500"
    return bad + CORE_1_ON + [f"0 {one}", f"1 {one}", *CORE_1_OFF, f"0 {one}", "0 call VERSION"]


def mode():
    """OS-initiated mode, and what it refuses of a caller that is not the last core."""
    modes = [f"0 call SET_SUSPEND_MODE {it}" for it in ("0", "2", "0xffffffff", "0x100000000", "0x100000002", "1", "1",
                                                       "0x100000001", "0")]
    asks = ["0 sleep CPU_SUSPEND_64 0x1010033 E2 5 for 300", "0 sleep CPU_SUSPEND_64 0x10003 E2 5 for 300",
            "0 sleep CPU_SUSPEND_64 0x1000011 0 0 for 300"]
    return (modes + ["0 call CPU_ON_64 1 E1 0x11", "0 call SET_SUSPEND_MODE 1", "0 await 1 1",
                     "0 call SET_SUSPEND_MODE 1", "1 call SET_SUSPEND_MODE 1", "0 call SET_SUSPEND_MODE 0", *asks, *CORE_1_OFF, *asks,
                     "0 call SET_SUSPEND_MODE 0"])


def others():
    return [f"0 call {it} {value}" for it in OTHERS for value in ("0", "1", "0x100")] + [
        f"0 call SYSTEM_RESET2_{width} {it} 0x77" for width in BOTH
        for it in ("1", "2", "0x7fffffff", "0x80000000", "0x80000001", "0xffffffff", "0x100000001")]


def hardware_state():
    made = [f"0 call NODE_HW_STATE_{width} {it} {level}" for width in BOTH
            for it in ("0", "1", "4", "0x100", "0x10000", "0x80000000", "0x100000000")
            for level in ("0", "1", "2", "3", "0xffffffff", "0x100000000")]
    return made + ["0 call CPU_ON_64 1 E1 0x11", "0 call NODE_HW_STATE_64 1 0", "0 await 1 1",
                   "0 call NODE_HW_STATE_64 1 0", *CORE_1_OFF, "0 delay 2000", "0 call NODE_HW_STATE_64 1 0", "0 call NODE_HW_STATE_64 1 1"]


def lives(reset):
    """What a reset of the system leaves: all cores but one are off, and nothing is pending."""
    again = ["0 call VERSION", "0 call SET_SUSPEND_MODE 0", "0 call AFFINITY_INFO_64 1", "0 call AFFINITY_INFO_64 2",
             "0 call CPU_ON_64 1 E2 0x22", "0 await 1 1", "1 call AFFINITY_INFO_64 0"]
    # where the reset is not there, the call comes back, and the machine goes off
    ends = [f"0 stop {reset}", "0 stop SYSTEM_OFF", "reset"]
    return [*CORE_1_ON, "0 call CPU_ON_64 2 E3 0x33", *ends, *again, *ends, *again]


# the kinds of storms: how many calls of each core, and the power states
STORMS = {"storm": "120 1 0", "storm-down": "120 1 0x10003", "storm-wide": "40 1 0x1010033 1"}


def storm(kind, seed):
    """Every second wide one is in OS-initiated mode."""
    mode = ["0 call SET_SUSPEND_MODE 1"] if kind == "storm-wide" and seed % 2 else []
    return ["0 call VERSION", *mode, f"0 storm {seed} {STORMS[kind]}"]


def topics():
    """Each list by its name, without its last line."""
    whole = (features, words, affinity, on_targets, refusals, on_race, on_twice, off, standby,
             system_suspend, mode, others, hardware_state)
    made = {it.__name__.replace("_", "-"): it() for it in whole}
    made.update({f"on-entry-{at:02}": on_entry(it) for at, it in enumerate(ENTRIES)})
    made.update({f"down-{at:02}": down(it) for at, it in enumerate(DOWNS)})
    made.update(bit_topics.topics())
    made["lives"], made["lives-warm"] = lives("SYSTEM_RESET"), lives("SYSTEM_RESET2_64 0 0")
    for kind, many in zip(STORMS, (5, 3, 6)):
        made.update({f"{kind}-{seed}": storm(kind, seed) for seed in range(1, many + 1)})
    return made


def lines(name):
    """The lines of a topic; of storm-N and its like, of any seed N."""
    kind, _, seed = name.rpartition("-")
    if kind in STORMS and seed.isdigit():
        body = storm(kind, int(seed))
    else:
        body = topics()[name]
    return [*body, "0 stop SYSTEM_OFF"]


if __name__ == "__main__":
    print("\n".join(lines(sys.argv[1]) if len(sys.argv) > 1 else sorted(topics())))
