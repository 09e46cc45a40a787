/* What OP-TEE's psci.c and std_smc.c take from its headers that are not here. */
#include <assert.h>
#include <stdbool.h>
#include <stddef.h>
#include <stdint.h>

#define U(x) x##u
#define BIT32(n) (1u << (n))
#define SHIFT_U32(x, n) ((uint32_t)(x) << (n))
#define SPINLOCK_UNLOCK 0
#define CFG_TEE_CORE_NB_CORE 2
#define OPTEE_SMC_RETURN_UNKNOWN_FUNCTION 0xffffffffu
typedef uint32_t paddr_t, vaddr_t;
typedef struct { uint32_t timeLow; uint16_t timeMid, timeHiAndVersion; uint8_t clockSeqAndNode[8]; } TEE_UUID;
struct thread_smc_args { uint32_t a0, a1, a2, a3, a4, a5, a6, a7; };
struct sm_nsec_ctx { int none; };
struct itr_chip { int none; };
enum { TRACE_LEVEL = 0, TRACE_DEBUG, DCACHE_OP_CLEAN = 0, GIC_NON_SEC_SGI_0 = 0, GIC_SEC_SGI_0 = 8, TARGET_CPU1_GIC_MASK = 2,
       RTCAPB = 0, MPSYST_R, RCC_MP_GRSTCSETR = 0x404, RCC_MP_GRSTCSETR_MPUP1RST = 0x20, BCKR_CORE1_BRANCH_ADDRESS = 5,
       BCKR_CORE1_MAGIC_NUMBER = 4, BOOT_API_A7_CORE1_MAGIC_NUMBER = 0xca7face1u, THREAD_EXCP_ALL = 7, TEE_LOAD_ADDR = 0x2ffc0000 };
#define stm32mp_bkpreg(n) (n)
#define io_write32(at, value) ((void)(at))
#define stm32mp_rcc_reset_id_to_rstctrl(id) (id)
#define stm32mp_with_pmic() true
size_t get_core_pos(void), get_core_pos_mpidr(uint32_t mpidr);
void wfi(void), panic(void), rstctrl_assert(int what), stpmic1_switch_off(void);
void boot_set_core_ns_entry(size_t core, uintptr_t entry, uintptr_t context_id), stm32mp_register_online_cpu(void);
