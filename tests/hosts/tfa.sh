# The firmware inside TF-A (hosts/tfa), sourced by ./test after tests/hosts/el3.sh: stored records, faults that
# still fit, and Linux on TF-A where QEMU, a kernel, TF-A's source and the archive are here.

# each stored record of a run inside TF-A, asked again
tfa_records() {
    local file
    has_python "records of hosts/tfa" || return
    hosts/records take hosts/tfa/runs.tar.xz "$work/runs"
    for file in "$work"/runs/*.record; do compared 0 "safe after each of them" "$file"; done
}

# each fault still fits the adaptor's sources
tfa_faults() {
    local name
    has_python "faults of hosts/tfa" || return
    for name in $(sed -n 's/^== //p' hosts/tfa/faults.edits); do
        if planted tfa "$name" "$work/tfa-copy"; then pass; else fail "hosts/tfa/faults.edits: $name"; fi
    done
}

# downs_of FOLDER: the try of gumdarts_firmware.c on this machine, of the adaptor in this folder
downs_of() {
    cc -std=gnu11 -O2 -Wall -Wextra -Werror -I"$work/stand-in" -Iinclude -Ihosts -I"$1" -o "$work/downs" \
        "$1/downs.c" "$1/gumdarts_firmware.c" hosts/pool.c "$archive" > "$work/out" 2>&1 &&
        timeout "$patience" "$work/downs" > "$work/out" 2>&1
}

# downs_fail FAULT TEXT: with this fault the try ends with this text
downs_fail() {
    local copy=$work/tfa-copy
    if planted tfa "$1" "$copy" && ! downs_of "$copy" && grep -q "$2" "$work/out"; then pass; else
        fail "hosts/tfa/downs.c with the fault $1"
        head -n 5 "$work/out"
    fi
}

# a Down of which a part is left waits, no start is lost, no poll waits, and domains are locked as the mode asks;
# and the faults that break these show
tfa_downs() {
    local name check text
    has_python "downs of hosts/tfa" || return
    command -v cc > /dev/null || { skip "downs of hosts/tfa" cc; return; }
    [ -f "$archive" ] || { skip "downs of hosts/tfa" "$archive"; return; }
    for name in lib/psci/psci.h plat/common/platform.h common/debug.h lib/spinlock.h psci_private.h; do
        mkdir -p "$(dirname "$work/stand-in/$name")"
        cp hosts/tfa/stand_in.h "$work/stand-in/$name"
    done
    if downs_of hosts/tfa; then pass; else
        fail "hosts/tfa/downs.c"
        head -n 5 "$work/out"
    fi
    while IFS='|' read -r name check text; do
        [ "$check" != downs ] || downs_fail "$name" "$text"
    done < <(hosts/plant --told hosts/tfa/faults.edits)
}

# tfa_says TEXT WORD..: hosts/tfa/run refuses these words with this text, with no more tools than are named
tfa_says() {
    local status=0 text=$1 tool
    shift
    mkdir -p "$work/few"
    for tool in bash dirname env; do ln -sf "$(command -v $tool)" "$work/few/$tool"; done
    PATH=$work/few hosts/tfa/run "$@" > "$work/out" 2>&1 || status=$?
    if [ "$status" = 1 ] && grep -qF -- "$text" "$work/out"; then pass; else
        fail "hosts/tfa/run $* (status $status, wanted 1 with '$text')"
        head -n 3 "$work/out"
    fi
}

# TF-A's sources, of each release that is here: 2.8 and 2.12
tfa_cache=${GUMDARTS_CACHE:-$HOME/.cache/gumdarts}
tfa_2_8=$tfa_cache/tfa/source
tfa_2_12=$tfa_cache/trixie/tfa/source

# tfa_guide SOURCE MANY: each function and hook of the chapter on PSCI of TF-A's porting guide has a line in the page's
# table
tfa_guide() {
    local name guide
    guide=$(find "$1/docs" -name porting-guide.rst 2> /dev/null)
    [ -f "$guide" ] || { skip "hooks of TF-A's porting guide" "$1"; return; }
    sed -n '/^Power State Coordination Interface (in BL31)/,/^Interrupt Management framework (in BL31)/p' "$guide" |
        sed -nE 's/^(Function : |plat_psci_ops\.)(\w+)\(\).*/\2/p' > "$work/hooks"
    [ "$(wc -l < "$work/hooks")" = "$2" ] || fail "$guide has $(wc -l < "$work/hooks") hooks, and not $2"
    while read -r name; do
        if grep -q "^|.*\`$name\`.*| \(kept\|replaced\|lost\)" docs/port/TFA.md; then pass; else fail "docs/port/TFA.md: $name"; fi
    done < "$work/hooks"
}

# tfa_accounted FOLDER SOURCE TEXT: of the adaptor in this folder its tool says this of what TF-A's lib/psci does
tfa_accounted() {
    "$1/accounted" "$2" > "$work/out" 2>&1
    if grep -qF -- "$3" "$work/out"; then pass; else
        fail "hosts/tfa/accounted $2, wanted '$3'"
        head -n 5 "$work/out"
    fi
}

# each call and hook of the functions that the adaptor replaces is made, or listed with a reason; one that is missing
# is told, and a line too many
tfa_calls() {
    local copy=$work/tfa-copy
    has_python "hosts/tfa/accounted" || return
    [ -d "$tfa_2_8" ] || { skip "calls of TF-A 2.8" "$tfa_2_8"; return; }
    [ -d "$tfa_2_12" ] || { skip "calls of TF-A 2.12" "$tfa_2_12"; return; }
    tfa_accounted hosts/tfa "$tfa_2_8" "TF-A 2.8: all but 23 are made"
    tfa_accounted hosts/tfa "$tfa_2_12" "TF-A 2.12: all but 27 are made"
    rm -rf "$copy"
    cp -r hosts/tfa "$copy"
    sed -i 's/cm_manage_extensions_el3();//; s/pwr_domain_off_early(asked)/pwr_domain_off(asked)/' "$copy"/gumdarts_*.c
    echo '2.12 | psci_cpu_off | plat_my_core_pos | none' >> "$copy/accounted.list"
    tfa_accounted "$copy" "$tfa_2_12" "psci_warmboot_entrypoint: cm_manage_extensions_el3: TF-A 2.12 has it"
    tfa_accounted "$copy" "$tfa_2_12" "psci_cpu_off: ->pwr_domain_off_early(): TF-A 2.12 has it"
    tfa_accounted "$copy" "$tfa_2_12" "psci_cpu_off: plat_my_core_pos: accounted.list has it"
    sed -i 's/GUMDARTS_TFA_MINOR > 8/GUMDARTS_TFA_MINOR > 12/' "$copy"/gumdarts_stops.c
    tfa_accounted "$copy" "$tfa_2_12" "psci_pwrdown_cpu: spe_stop: TF-A 2.12 has it"
}

# tfa_makes MINOR TEXT: the adaptor's makefile ends with this text in this version of TF-A
tfa_makes() {
    make -f hosts/tfa/adaptor.mk ARCH=aarch64 USE_COHERENT_MEM=1 HW_ASSISTED_COHERENCY=0 VERSION_MAJOR=2 \
        VERSION_MINOR="$1" > "$work/out" 2>&1
    if grep -qF -- "$2" "$work/out"; then pass; else
        fail "hosts/tfa/adaptor.mk in TF-A 2.$1, wanted '$2'"
        head -n 3 "$work/out"
    fi
}

# a version that is not known is refused
tfa_versions() {
    command -v make > /dev/null || { skip "hosts/tfa/adaptor.mk" make; return; }
    tfa_makes 8 "No targets"
    tfa_makes 12 "No targets"
    tfa_makes 11 "GUMDARTS knows TF-A 2.8 2.12, and not 2.11"
    tfa_makes 13 "GUMDARTS knows TF-A 2.8 2.12, and not 2.13"
}

tfa_words() {
    tfa_guide "$tfa_2_8" 27
    tfa_guide "$tfa_2_12" 29
    tfa_calls
    tfa_versions
    tfa_says "run: unknown release buster; expected bookworm, trixie, trixie-backports or sid" --release buster
    tfa_says "run: missing qemu-system-aarch64 aarch64-linux-gnu-gcc" each
    tfa_says "run: unknown option --fast; see --help" --fast
}

# has_for_tfa WHAT CACHE: whether there is what builds and boots TF-A, of downloads in this folder
has_for_tfa() {
    local tool name
    has_python "$1" || return
    for tool in qemu-system-aarch64 aarch64-linux-gnu-gcc gcc dtc make patch; do
        command -v "$tool" > /dev/null || { skip "$1" "$tool"; return 1; }
    done
    for name in "$2/packages/bin/busybox" "$2/tfa/source/Makefile" /usr/include/openssl/sha.h \
        "$PWD/out/lib/aarch64/libpsci_ffi-strict-align.a"; do
        [ -f "$name" ] || { skip "$1" "$name"; return 1; }
    done
}

# tfa_boots OPTION..: Linux on TF-A, all that it does there, and its record
tfa_boots() {
    if TFA_OUT=$work/tfa hosts/tfa/run --seconds "$patience" --record "$work/tfa.record" "$@" each boot-core idle \
        suspend-5 > "$work/out" 2>&1; then pass; else
        fail "hosts/tfa/run $*"
        tail -n 20 "$work/out"
        return
    fi
    ! grep -q "did not" "$work/out" || fail "hosts/tfa/run $*: $(grep "did not" "$work/out" | head -n 1)"
    compared 0 "are answered as by the proved program" "$work/tfa.record"
}

# Linux on the firmware inside TF-A, from a built archive and with what was downloaded before
tfa_live() {
    has_for_tfa "Linux on TF-A" "$tfa_cache" || return
    say "Linux on TF-A"
    tfa_boots
}

# tfa_registers STATUS TEXT OPTION..: EL3's registers in TF-A 2.12, beside TF-A as it is
tfa_registers() {
    local status=0
    TFA_OUT=$work/registers hosts/tfa/registers --release trixie "${@:3}" > "$work/out" 2> "$work/err" || status=$?
    if [ "$status" = "$1" ] && grep -q -- "$2" "$work/out"; then pass; else
        fail "hosts/tfa/registers ${*:3} (status $status, wanted $1 with '$2')"
        head -n 5 "$work/out" "$work/err"
    fi
}

# tfa_in_no_run FAULT TEXT OPTION..: with this fault the record of Linux on TF-A is in no run, and this is said of it
tfa_in_no_run() {
    TFA_OUT=$work/tfa hosts/tfa/run --seconds "$patience" --record "$work/tfa.record" --fault "$1" "${@:3}" each \
        > "$work/out" 2>&1
    compared 6 "$2" "$work/tfa.record"
}

# the same in TF-A 2.12 with Linux 6.12, in both modes; a fault shows; and what EL3 sets for each core is what it sets by
# itself
tfa_2_12_live() {
    has_for_tfa "Linux on TF-A 2.12" "$tfa_cache/trixie" || return
    say "Linux on TF-A 2.12"
    tfa_boots --release trixie --mode osi
    tfa_boots --release trixie
    tfa_in_no_run no-wait "was taken down before it stood in its stop" --release trixie
    tfa_registers 0 " of each core after 3 stages: 0 differ$"
    tfa_registers 1 "^after CPU_ON, core 1, SMCR_EL3: TF-A 0x8000000f, ours 0x0$" --fault core-setup
}

# tfa_count TOOL EDIT TEXT: this edit of what a tool has counted is told by this text
tfa_count() {
    rm -rf "$work/edited"
    mkdir "$work/edited"
    cp "$work/counted"/*-bookworm "$work/counted"/*-trixie "$work/edited"
    sed -i "$2" "$work/edited/$1-trixie"
    if cmp -s "$work/counted/$1-trixie" "$work/edited/$1-trixie"; then fail "hosts/tfa/$1 prints nothing as $2"; return; fi
    if hosts/tfa/figures --check --again --told "$work/edited" > "$work/out" 2>&1; then
        fail "hosts/tfa/figures lets this through: $2"
    elif grep -q -- "$3" "$work/out"; then pass; else
        fail "hosts/tfa/figures does not name this: $2"
        head -n 5 "$work/out"
    fi
}

# what the page says of TF-A 2.8 and 2.12, as they are and with the firmware inside, in instructions and bytes
tfa_figures() {
    local what="figures of TF-A, as it is and with the firmware inside"
    has_for_tfa "$what" "$tfa_cache" && has_for_tfa "$what" "$tfa_cache/trixie" || return
    [ "$(aarch64-linux-gnu-gcc -dumpfullversion)" = 12.2.0 ] || { skip "$what" "aarch64-linux-gnu-gcc 12.2"; return; }
    say "counting what calls take inside TF-A, some minutes"
    if hosts/tfa/figures --check --told "$work/counted" > "$work/out" 2>&1; then pass; else
        fail "the figures of docs/port/TFA.md; hosts/tfa/figures --write writes them"
        head -n 20 "$work/out"
    fi
    [ -e "$work/counted/waits-trixie" ] || return
    tfa_count parts 's/^ours: 0 call VERSION: [0-9]*/ours: 0 call VERSION: 999/' \
        'PSCI_VERSION, with the firmware inside: docs/port/TFA.md says [0-9,]*, it is 999'
    tfa_count measure '/^ours: held: CPU_OFF, firmware/d' "the firmware's, CPU_OFF, with the firmware inside: .*, it is nothing"
    tfa_count waits 's/CPU_ON: \(.*\); ours \([0-9,]*\) times: [0-9,]*,/CPU_ON: \1; ours \2 times: 99,999,/' 'CPU_ON, with .* it is 99,999'
    tfa_count sizes 's/^stock: code and constants: .*/stock: code and constants: 4096/' 'code and constants, TF-A 2.12: .* it is 4,096'
}
