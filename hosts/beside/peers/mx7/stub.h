/* What psci-mx7.c takes from U-Boot's headers that are not here. */
#include "../stm32/armv7.h"
#define WCR_WDE 4
struct wdog_regs { u16 wcr, wsr, wrsr, wicr, wmcr; };
enum { WDOG1_BASE_ADDR = 0x30280000, ANATOP_BASE_ADDR = 0x30360000, SNVS_BASE_ADDR = 0x30370000,
       CCM_BASE_ADDR = 0x30380000, SRC_BASE_ADDR = 0x30390000, GPC_IPS_BASE_ADDR = 0x303a0000,
       SYSCNT_CTRL_IPS_BASE_ADDR = 0x306c0000, DDRC_IPS_BASE_ADDR = 0x307a0000, GIC400_ARB_BASE_ADDR = 0x31000000,
       GIC_DIST_OFFSET = 0x1000, GICD_CTLR = 0, GICD_TYPER = 4, GICD_IGROUPRn = 0x80 };
void writew(u32 value, void *at), psci_system_resume(void);
