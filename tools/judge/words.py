"""Function words by name, and codes."""
import firmware as fw
import functions

# all that the standard names, whether ours or not
NAMES = ("VERSION", "CPU_SUSPEND", "CPU_OFF", "CPU_ON", "AFFINITY_INFO", "MIGRATE",
         "MIGRATE_INFO_TYPE", "MIGRATE_INFO_UP_CPU", "SYSTEM_OFF", "SYSTEM_RESET", "FEATURES",
         "CPU_FREEZE", "CPU_DEFAULT_SUSPEND", "NODE_HW_STATE", "SYSTEM_SUSPEND",
         "SET_SUSPEND_MODE", "STAT_RESIDENCY", "STAT_COUNT", "SYSTEM_RESET2", "MEM_PROTECT",
         "MEM_PROTECT_CHECK_RANGE", "SYSTEM_OFF2", "CLEAN_INV_MEMREGION", "CLEAN_INV_MEMREGION_ATTRIBUTES")
LOW = 2**32 - 1
# what asks for the version of the calling convention, and the first one by which a call keeps x4 to x17
CONVENTION, KEEPS_EARLY = 0x80000000, 0x10001
# calls from which a core comes back by a wake-up, or not at all
SLEEPS = fw.CPU_SUSPEND + fw.SYSTEM_SUSPEND
ENDS = fw.SYSTEM_OFF + fw.SYSTEM_RESET + fw.SYSTEM_RESET2
STOPS = SLEEPS + ENDS + fw.CPU_OFF
# of PSCI 1.3, which ends the system where the firmware has it
SYSTEM_OFF2 = (0x84000015, 0xC4000015)
# calls about a domain of a level
LEVELED = tuple(word for it in functions.TABLE if "Level" in it.takes for word in (it.smc32, it.smc64) if word)


def name_of(word):
    """A function's name: _64 where it is an SMC64 word, ^ where bits above the word are set."""
    low = word & LOW
    if low & 0xBFFFFFE0 != 0x84000000 or low & 31 >= len(NAMES):
        return hex(word)
    return NAMES[low & 31] + "_64" * (low >> 30 & 1) + "^" * (word > LOW)


def function_of(word):
    """A function's name in either width."""
    return name_of(word & LOW & ~(1 << 30)) if word & 0x84000000 == 0x84000000 else hex(word & LOW)


def word_of(name):
    """The word of a name or of a hexadecimal number; ValueError where it is neither."""
    base, _, width = name.rpartition("_")
    if width not in ("32", "64") or base not in NAMES:
        base, width = name, "32"
    if base in NAMES:
        return 0x84000000 + NAMES.index(base) + (fw.SMC64 if width == "64" else 0)
    return int(name, 16)


def code_of(word, result):
    """The code that an answer means: an SMC32 result is in the low half."""
    bits = 64 if word & fw.SMC64 else 32
    result &= 2**bits - 1
    return result - 2**bits if result >> bits - 1 else result


def arguments_of(regs):
    """x1 to x3 as the function sees them."""
    return list(regs[1:]) if regs[0] & fw.SMC64 else [it & LOW for it in regs[1:]]
