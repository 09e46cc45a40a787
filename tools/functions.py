"""The functions that the firmware has, in the order of their numbers. `tools/tables` writes this file."""
from collections import namedtuple

# A function: its name in the standard, the same as one word of a line, its words by SMC32 and SMC64 (None
# where there is none), what its arguments are, and the codes that it returns.
Function = namedtuple("Function", "name short smc32 smc64 takes codes")

TABLE = (
    Function("PSCI_VERSION", "version", 0x84000000, None,
             (), (65537,)),
    Function("CPU_SUSPEND", "cpu_suspend", 0x84000001, 0xC4000001,
             ("PowerState", "Entry", "Context"), (0, -2, -3, -9)),
    Function("CPU_OFF", "cpu_off", 0x84000002, None,
             (), ()),
    Function("CPU_ON", "cpu_on", 0x84000003, 0xC4000003,
             ("Target", "Entry", "Context"), (0, -2, -4, -5, -6, -9)),
    Function("AFFINITY_INFO", "affinity_info", 0x84000004, 0xC4000004,
             ("Target", "Level"), (0, 1, 2, -2)),
    Function("MIGRATE_INFO_TYPE", "migrate_info_type", 0x84000006, None,
             (), (2,)),
    Function("SYSTEM_OFF", "system_off", 0x84000008, None,
             (), ()),
    Function("SYSTEM_RESET", "system_reset", 0x84000009, None,
             (), ()),
    Function("PSCI_FEATURES", "features", 0x8400000A, None,
             ("Word",), (0, 1, 3, -1)),
    Function("NODE_HW_STATE", "node_hw_state", 0x8400000D, 0xC400000D,
             ("Target", "Level"), (0, 1, 2, -2)),
    Function("SYSTEM_SUSPEND", "system_suspend", 0x8400000E, 0xC400000E,
             ("Entry", "Context"), (-3, -9)),
    Function("PSCI_SET_SUSPEND_MODE", "set_suspend_mode", 0x8400000F, None,
             ("Mode",), (0, -2, -3)),
    Function("SYSTEM_RESET2", "system_reset2", 0x84000012, 0xC4000012,
             ("ResetType", "Cookie"), (-2,)),
)
