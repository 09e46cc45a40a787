/* What the peers of U-Boot have in common: its words for types and bits. */
#include <errno.h>
#include <stdbool.h>
#include <stddef.h>
#include <stdint.h>

typedef uint8_t u8;
typedef uint16_t u16;
typedef uint32_t u32;
typedef int32_t s32;
typedef uint64_t u64;
#define BIT(n) (1u << (n))
#define GENMASK(h, l) ((~0u << (l)) & (~0u >> (31 - (h))))
#define CONFIG_ARMV7_PSCI_NR_CPUS 2
u32 readl(uintptr_t at), psci_get_cpu_id(void), psci_get_target_pc(int cpu), psci_get_context_id(int cpu);
void writel(u32 value, uintptr_t at), wfi(void), psci_cpu_entry(void), psci_save(int cpu, u32 pc, u32 context_id);
