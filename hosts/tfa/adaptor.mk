# The proved firmware in the place of lib/psci's decisions, included by TF-A's lib/psci/psci_lib.mk:
#   make GUMDARTS=FOLDER [GUMDARTS_ARCHIVE=libpsci_ffi-strict-align.a] ..
# GUMDARTS is the folder of this repository. GUMDARTS_RECORD=1 tells the record of the run
# (docs/compare/RECORD.md) on the crash console. A platform whose code may not be entered everywhere says so by
# validate_ns_entrypoint, or by GUMDARTS_EXEC_BASE and GUMDARTS_EXEC_END.
GUMDARTS_ARCHIVE	?=	${GUMDARTS}/out/lib/aarch64/libpsci_ffi-strict-align.a
GUMDARTS_FOLDER		?=	${GUMDARTS}/hosts/tfa
GUMDARTS_RECORD		?=	0

# Another version may do more as a core comes up or goes down, and nothing would say that it is missing.
# hosts/tfa/accounted says what it does.
GUMDARTS_VERSIONS	:=	2.8 2.12
ifeq ($(filter ${VERSION_MAJOR}.${VERSION_MINOR},${GUMDARTS_VERSIONS}),)
$(error GUMDARTS knows TF-A ${GUMDARTS_VERSIONS}, and not ${VERSION_MAJOR}.${VERSION_MINOR})
endif
GUMDARTS_TFA_MINOR	:=	${VERSION_MINOR}
ifneq (${ARCH},aarch64)
$(error GUMDARTS is for AArch64)
endif
ifeq (${USE_COHERENT_MEM}${HW_ASSISTED_COHERENCY},00)
$(error GUMDARTS wants USE_COHERENT_MEM=1 or HW_ASSISTED_COHERENCY=1)
endif

# of lib/psci there stay what changes memory and caches, and the tables of PSCI_STAT
PSCI_LIB_SOURCES	:=	$(filter-out lib/psci/psci_%.c,${PSCI_LIB_SOURCES})	\
				$(filter lib/psci/psci_mem_protect.c lib/psci/psci_stat.c,${PSCI_LIB_SOURCES}) \
				${GUMDARTS_FOLDER}/gumdarts_tree.c	\
				${GUMDARTS_FOLDER}/gumdarts_states.c	\
				${GUMDARTS_FOLDER}/gumdarts_firmware.c	\
				${GUMDARTS_FOLDER}/gumdarts_calls.c	\
				${GUMDARTS_FOLDER}/gumdarts_others.c	\
				${GUMDARTS_FOLDER}/gumdarts_stops.c	\
				${GUMDARTS_FOLDER}/gumdarts_entries.c	\
				${GUMDARTS_FOLDER}/gumdarts_setup.c	\
				${GUMDARTS_FOLDER}/gumdarts_record.c	\
				${GUMDARTS_FOLDER}/gumdarts_stack.S	\
				${GUMDARTS_FOLDER}/gumdarts_bytes.S	\
				${GUMDARTS_FOLDER}/gumdarts_lock.S	\
				${GUMDARTS}/hosts/pool.c
INCLUDES		+=	-Ilib/psci -I${GUMDARTS}/include -I${GUMDARTS}/hosts -I${GUMDARTS_FOLDER}
BL31_LIBS		+=	${GUMDARTS_ARCHIVE}
$(eval $(call add_define,GUMDARTS_RECORD))
$(eval $(call add_define,GUMDARTS_TFA_MINOR))
