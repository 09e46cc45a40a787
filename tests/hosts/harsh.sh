# The port at EL3 on a machine as silicon is, sourced by ./test after tests/hosts/boards.sh and port.sh: power goes in each
# WFI of a stop, a reset leaves garbage, and a plugin of QEMU has caches (hosts/el3/harsh).
harsh=(--power-goes --cache-model)

# Linux, and lists of the payload, by both interrupt controllers, the power controller on its own core and in the monitors;
# and the faults that are told here. Some three minutes
el3_harsh() {
    local took=0 machine
    can_boot || return
    make -s -C hosts/payload "OUT=$work/payload" > "$work/out" 2>&1 || { fail "make -C hosts/payload"; return; }
    live harsh "${harsh[@]}" each boot-core idle suspend-2
    live harsh-sbsa --board sbsa-ref "${harsh[@]}" each boot-core idle suspend-2
    for machine in sbsa-ref four-3 four; do harsh_list "$machine" "" wake; done
    harsh_faults harsh
    few_again
    multiplies_are_fixed
}

# the same with three lives, more cores, other processors, QEMU 10 and all lists, some ten minutes: by name alone
el3_harsh_all() {
    local took=0 machine list
    can_boot || return
    make -s -C hosts/payload "OUT=$work/payload" > "$work/out" 2>&1 || { fail "make -C hosts/payload"; return; }
    live harsh-lives --lives 3 "${harsh[@]}" each reboot
    live harsh-3 --gic 3 "${harsh[@]}" each boot-core idle suspend-5 vectors
    live harsh-osi --mode osi "${harsh[@]}" each boot-core idle suspend-5
    live harsh-sixteen --single --power-goes --cores "((4 4) (4 4))" boot-core idle
    live harsh-max --power-goes --cpu max each idle
    live harsh-cut --power-goes --reset-at "guest: core 2 off" each
    # where a line resets one core, the model of caches would take that for the machine's reset
    live harsh-zcu102 --board zcu102 --power-goes each boot-core idle suspend-2
    for machine in four four-3 sbsa-ref; do
        for list in tests/program/lists/*.list; do harsh_list "$machine" "" "$(basename "$list" .list)"; done
    done
    harsh_list four "" wake
    harsh_faults harsh-all
    by_newer_qemu harsh_by_ten
}
harsh_by_ten() {
    local machine
    live harsh-ten --gic 3 "${harsh[@]}" each boot-core idle suspend-2
    for machine in four four-3; do harsh_list "$machine" "" wake; done
}

# played_harshly MACHINE FAULT LIST [SECONDS]: what is wrong with a list there is in $work/out
played_harshly() {
    local status=0 option=${2:+--fault $2} board=virt profile=$work/harsh-profile
    [ "$1" != four-3 ] || option+=" --gic 3"
    [[ $1 = four* ]] || board=$1
    rm -rf "$work/lists" "$work/el3-lists/"*.log
    sed "s/^board .*/board $(text_of_board $board 4)/" hosts/payload/profiles/el3 > "$profile"
    EL3_OUT=$work/el3-lists hosts/payload/run --payload "$work/payload/payload.bin" --seconds "${4:-$patience}" --out "$work/lists" \
        --command "hosts/el3/run --seconds $patience ${harsh[*]} --board $board $option --cores 4 --mode none --kernel IMAGE" \
        "tests/program/lists/$3.list" > "$work/said" 2>&1
    ./psci compare --limit "$patience" --profile "$profile" "$work/lists/$3.record" > "$work/out" 2>&1 || status=1
    { grep "did not end" "$work/said"
        grep '^caches: [0-9]* times: [^p]' "$work/el3-lists/caches.log"
        grep "^# el3: " "$work/el3-lists/el3.log" | grep -v "of the"; } >> "$work/out" 2> /dev/null
    [ $status = 0 ] && ! grep -q "did not end\|^caches: \|^# el3: " "$work/out"
}

# harsh_list MACHINE FAULT LIST: leaves in $took what it took
harsh_list() {
    local begun=$SECONDS
    say "Lists at EL3 on a harsh machine: $1, $3"
    if played_harshly "$@"; then pass; else
        fail "hosts/el3 ${harsh[*]} on $1 by tests/program/lists/$3.list"
        head -n 10 "$work/out"
    fi
    took=$((SECONDS - begun))
}

# harsh_faults CHECK: each of its faults is told by the list `wake`; a hang gets more time than the port took before
harsh_faults() {
    local name check machine text most
    while IFS='|' read -r name check machine text; do
        [ "$check" = "$1" ] || continue
        say "a harsh machine: the fault $name"
        if [ "$text" = "did not end" ]; then most=$((20 + 3 * took)); else most=$patience; fi
        if played_harshly "$machine" "$name" wake "$most"; then fail "$name is not seen on a harsh machine"
        elif grep -q -- "$text" "$work/out"; then pass; else
            fail "$name is seen on a harsh machine, which does not say '$text'"
            head -n 5 "$work/out"
        fi
    done < <(hosts/plant --told hosts/el3/faults.edits)
}

# a message is sent again if it was lost, and not because nobody who sleeps has heard its answer; the guest's time is that of
# its instructions, so that a busy machine sends none again
few_again() {
    local fault again
    for fault in "" deaf-control; do
        EL3_OUT=$work/el3-again hosts/el3/run --count --seconds "$patience" ${fault:+--fault "$fault"} suspend-5 > "$work/out" 2>&1
        again=$(sed -n 's/^messages .* sent again \([0-9]*\), .*/\1/p' "$work/out")
        if [ "${again:-none}" != none ] && [ $((again > 100)) = $((${#fault} > 0)) ]; then pass; else
            fail "in a suspend of 5 seconds ${again:-no} messages are sent again, $fault"
        fi
    done
}

# Cortex-A53, erratum 835769: no multiplication of 64 bits with a sum stands right behind a load or a store, but for one that
# takes what was loaded
multiplies_are_fixed() {
    local fault status
    for fault in "" bad-multiplies; do
        EL3_OUT=$work/el3-a53 hosts/el3/run --board zcu102 --seconds 1 ${fault:+--fault "$fault"} > "$work/out" 2>&1
        status=0
        aarch64-linux-gnu-objdump -d "$work/el3-a53/firmware.elf" | awk -F '[ \t,]+' '
            { for (k = 5; k <= NF; k++) { number[k] = $k; gsub(/[^0-9]/, "", number[k]) } }
            memory && $4 ~ /^(madd|msub|[su]m(add|sub)l)$/ && $5 ~ /^x/ {
                takes = 0
                for (k = 6; k <= 8; k++) takes += loads && (number[k] == first || (pair && number[k] == second))
                if (!takes) { print; bad = 1 } }
            { memory = $4 ~ /^(ld|st|prfm)/; loads = $4 ~ /^ld/; pair = $4 ~ /p$/; first = number[5]; second = number[6] }
            END { exit bad }' > "$work/out" || status=1
        if [ $status = $((${#fault} > 0)) ]; then pass; else
            fail "multiplications behind loads and stores on zcu102, $fault: $(head -n 1 "$work/out")"
        fi
    done
}
