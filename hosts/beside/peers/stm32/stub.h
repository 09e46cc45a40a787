/* What psci.c of mach-stm32mp takes from U-Boot's headers that are not here. */
#include "../stm32/armv7.h"
#define ARRAY_SIZE(a) (sizeof(a) / sizeof *(a))
#define CBAR_MASK 0xffff8000
#define __secure_stack_end 0x2fff0000
enum { STM32_RCC_BASE = 0x50000000, STM32_PWR_BASE = 0x50001000, STM32_SYSCFG_BASE = 0x50020000,
       STM32_DDRCTRL_BASE = 0x5a003000, STM32_DDRPHYC_BASE = 0x5a004000, STM32_IWDG1_BASE = 0x5c003000,
       STM32_IWDG2_BASE = 0x5a002000, GIC_DIST_OFFSET = 0x1000, GICD_ISENABLERn = 0x100, GICD_SGIR = 0xf00,
       GICR_IGROUPMODRn = 0xd00, TAMP_BACKUP_MAGIC_NUMBER = 0x5c00a150, TAMP_BACKUP_BRANCH_ADDRESS = 0x5c00a154 };
void hang(void), sleeps(void);
#define sleep_here(...) sleeps()
