# Hooks that PLAT=qemu lacks, for tries alone, with the adaptor or without it. It is read before TF-A's
# own makefiles: MAKEFILES=hosts/tfa/hooks.mk make GUMDARTS=.. HOOKS=FOLDER [HOOKS_CLUSTER=N] ..
HOOKS_CLUSTER	?=	0
HOOKS_PROBE	?=	0
HOOKS_MEASURE	?=	0
BL31_SOURCES	+=	${HOOKS}/hooks.c $(if $(filter 1,${HOOKS_PROBE}),${HOOKS}/hooks_probe.c)	\
			$(if $(filter 1,${HOOKS_MEASURE}),${HOOKS}/hooks_measure.c)
BL31_CPPFLAGS	+=	-I${HOOKS} -Ilib/psci -DHOOKS_CLUSTER=${HOOKS_CLUSTER} -DHOOKS_PROBE=${HOOKS_PROBE}	\
			-DHOOKS_MEASURE=${HOOKS_MEASURE} -DHOOKS_TFA_MINOR=${VERSION_MINOR}
HOOKS_COMMA	:=	,
HOOKS_WRAPPED	:=	plat_setup_psci_ops
ifneq (${HOOKS_CLUSTER},0)
HOOKS_WRAPPED	+=	plat_get_power_domain_tree_desc plat_core_pos_by_mpidr
endif
ifeq (${HOOKS_PROBE},1)
HOOKS_WRAPPED	+=	plat_get_target_pwr_state
endif
ifeq (${HOOKS_MEASURE},1)
HOOKS_WRAPPED	+=	spin_lock spin_unlock lock_if_free bakery_lock_get bakery_lock_release	\
			psci_smc_handler psci_warmboot_entrypoint
endif
# 2.8 links by the linker, later versions by the compiler
BL31_LDFLAGS	+=	$(patsubst %,$(if $(filter 8,${VERSION_MINOR}),,-Wl${HOOKS_COMMA})--wrap=%,${HOOKS_WRAPPED})
