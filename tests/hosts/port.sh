# The C of the port at EL3 without the emulated machine (hosts/el3/checks), sourced by ./test after tests/hosts/ffi.sh: its
# heaps, its doors and gates, its cores as threads, all values by Eva, and which of the planted faults each of these sees
# (hosts/el3/faults.edits). And a search of what crates/psci_port proves of a port.

checks=hosts/el3/checks
race=(-fsanitize=thread -fno-builtin)

# a port of two cores is searched to its end, and each fault that is planted in it is found
port_search() {
    has_python tests/hosts/port-search || return
    if tests/hosts/port-search > "$work/out" 2>&1; then pass; else
        fail tests/hosts/port-search
        cat "$work/out"
    fi
}

# port_built OUT KIND FLAG..: the port's own files as a program of this machine
port_built() {
    ARCHIVE=$archive "$checks/build" "$@" > "$work/err" 2>&1 ||
        { fail "$checks/build ${*:2}"; head -n 20 "$work/err"; false; }
}

# what the port opens has room in its heaps, on each machine that is stored and each board of its page, which says how
# much it takes. What pool.h says of machines is enough at each number of cores
port_heaps() {
    has_cc "the heaps of hosts/el3" && has_python "the heaps of hosts/el3" || return
    if ARCHIVE=$archive "$checks/heaps" > "$work/out" 2>&1; then pass; else fail "$checks/heaps"; fi
    sed -n 's/^    \(.*: firmware [0-9]*, power .*\)/\1/p' hosts/el3/README.md > "$work/lines"
    if cmp -s "$work/out" "$work/lines"; then pass; else
        fail "hosts/el3/README.md says of the heaps what $checks/heaps does not print"
        cat "$work/out"
    fi
    build_c machine-sizes tests/hosts/programs/machine-sizes.c || return
    if "$work/machine-sizes" > "$work/out"; then pass; else
        fail tests/hosts/programs/machine-sizes.c
        cat "$work/out"
    fi
}

# as_threads KIND MACHINE SEED: the port, in which FAULT may be planted, as a drawn run, and what is found of it is in
# $work/out. `threads` are watched by ThreadSanitizer, in two lives and one more after a press of the reset button, `narrow`
# with rings of two frames, too; a
# `record` is held to the program; in one that is `lossy` each second frame is lost. `monitors` and `monitors-record` have
# the power controller in the monitors. Some 5 seconds each
as_threads() {
    local status=0 compared=0 kind=threads flags=(-DRECORD) calls=(400 2 0)
    [[ $1 != monitors* ]] || kind=monitors
    [ "$1" != narrow ] || kind=narrow
    [ "$1" != $kind ] || flags+=("${race[@]}") calls=(500 2 1)
    [ "$1" != lossy ] || { flags+=(-DLOSE=2) calls=(400 3 0); }
    TABLE=hosts/el3/machines/$2.h port_built "$work/port" $kind "${flags[@]}" || return
    TSAN_OPTIONS=exitcode=66 timeout "$patience" setarch -R "$work/port" "$3" "${calls[@]}" "$work/port.told" \
        > "$work/out" 2>&1 || status=$?
    [ "$1" != $kind ] || return $status
    grep -v '^#' "$work/port.told" > "$work/port.record"
    ./psci compare --machine "hosts/el3/machines/$2.machine" "$work/port.record" >> "$work/out" 2>&1 || compared=$?
    awk '/-> return|^poll |-> resume/ { returns++ } /^leaves / { returns-- } END { exit returns > 100 }' "$work/port.record" ||
        { echo "calls that return without a line" >> "$work/out"; status=1; }
    # core 0 ends a life once it has made its calls, whichever core is on the way to its entry then
    [ $compared != 7 ] || ! tail -n 1 "$work/out" | grep "^started and never entered: " > /dev/null || compared=0
    [ $status != 0 ] || status=$compared
    return $status
}

# the port as it is: nothing is wrong in any run of its threads
port_threads() {
    local way
    has_cc "hosts/el3 as threads" || return
    for way in "threads four 1" "threads four 2" "threads sixteen 3" "record four 4" "lossy four 5" \
        "record affinity-1 6" "monitors four 7" "monitors sixteen 8" "monitors-record four 9" "narrow four 10"; do
        # shellcheck disable=SC2086
        if as_threads $way; then pass; else
            fail "hosts/el3 as threads: $way"
            tail -n 20 "$work/out"
        fi
    done
}

# a core at its door; and behind a reset line that acts late
port_doors() {
    local name
    has_cc "the doors of hosts/el3" || return
    for name in door gate; do
        port_built "$work/$name" "$name" || return
        if "$work/$name" > "$work/out" 2>&1; then pass; else
            fail "$checks/$name.c"
            cat "$work/out"
        fi
    done
}

# calls and interrupts, whatever the registers, the library and the other cores say; some 4 seconds each
port_values() {
    local entry
    command -v frama-c > /dev/null || { skip "hosts/el3 by Eva" frama-c; return; }
    for entry in main_call main_fiq; do
        if "$checks/eva" "$entry" > "$work/out" 2>&1; then pass; else
            fail "$checks/eva $entry"
            cat "$work/out"
        fi
    done
}

# modelled FLAGS [SECONDS]: the port as processes, by spin, to its end or for so long; what it found is in $work/out
modelled() {
    rm -rf "$work/model" && mkdir "$work/model"
    # shellcheck disable=SC2086
    (cd "$work/model" && spin -a $1 "$OLDPWD/$checks/port.pml" && cc -O2 -w -DSAFETY -DCOLLAPSE -DMEMLIM=2000 -o pan pan.c &&
        { timeout -s INT "${2:-$patience}" ./pan -m100000 -w22 -n || true; }) > "$work/out" 2>&1
}

# was_searched: to its end, and nothing is wrong
was_searched() { grep -q "errors: 0" "$work/out" && ! grep -q "not completed\|too small" "$work/out"; }

# in each order nothing is wrong, by two calls in a start, and by three starts of which frames may be lost; each fault is
# found, and a search that was broken off is none
port_model() {
    local flags
    command -v spin > /dev/null || { skip "a model of hosts/el3" spin; return; }
    has_cc "a model of hosts/el3" || return
    for flags in "" "-DMOST=3 -DCALLS=1 -DLOSE"; do
        if modelled "$flags" && was_searched; then pass; else
            fail "$checks/port.pml $flags"
            head -n 5 "$work/out"
        fi
    done
    for flags in -DNO_WAIT -DSTANDS_EARLY -DLATE_LOCK -DDOOR_FIRST -DBELL_LOST -DOLD_ACK "-DNO_TIMER -DLOSE"; do
        if modelled "$flags" 120 && grep -q "assertion violated" "$work/out"; then pass; else
            fail "$checks/port.pml: $flags is not told in two minutes"
            head -n 5 "$work/out"
        fi
    done
    if modelled -DMOST=9 1 && ! was_searched; then pass; else fail "$checks/port.pml: a search that was broken off passes"; fi
}

# seen_by CHECK MACHINE: whether this check lets the port with the planted FAULT through, of threads by eight seeds, of
# which a busy processor shows a race in some; what it says is in $work/out
seen_by() {
    local seed
    case $1 in
        heaps) ARCHIVE=$archive "$checks/heaps" > "$work/out" 2>&1 ;;
        door | gate) port_built "$work/$1" "$1" && "$work/$1" > "$work/out" 2>&1 ;;
        eva) "$checks/eva" main_call > "$work/out" 2>&1 ;;
        *) for seed in 1 2 3 4 5 6 7 8; do as_threads "$1" "$2" "$seed" || return; done ;;
    esac
}

# each planted fault is seen by the check that its line names, and says what the line has; each has a line, and stands in
# the tables of the page. Those of lists, `linux`, boards and a harsh machine are tried where QEMU is, those of `silicon` by
# el3_silicon
port_faults() {
    local name check machine text
    has_cc "faults of hosts/el3" && has_python "faults of hosts/el3" || return
    while IFS='|' read -r name check machine text; do
        if [ -n "$check" ] && grep -qF "\`$name\`" hosts/el3/README.md; then pass; else
            fail "hosts/el3/faults.edits says of $name nobody who tells it, or hosts/el3/README.md does not have it"
        fi
        [[ " heaps door gate threads narrow monitors record lossy eva " == *" $check "* ]] || continue
        [ "$check" != eva ] || command -v frama-c > /dev/null || { skip "the fault $name" frama-c; continue; }
        export FAULT=$name
        if seen_by "$check" "$machine"; then fail "$name is not seen by $check"
        elif grep -q -- "$text" "$work/out"; then pass; else
            fail "$name is seen by $check, which does not say '$text'"
            tail -n 5 "$work/out"
        fi
        unset FAULT
    done < <(hosts/plant --told hosts/el3/faults.edits)
}

# listed FAULT SECONDS [LIST]: what cores get of the port on QEMU, in which this fault may be planted, and what the judge
# and the port itself say of it is in $work/out; it is ended after so long, compiling included
listed() {
    local status=0 option="--fault $1" list=${3:-port}
    local board="4 exec 0x40000000-0x60000000 boot 0x40200000 starts 4294967295 lives 65535"
    [ -n "$1" ] || option=
    rm -f "$work/el3-lists/el3.log"
    EL3_OUT=$work/el3-lists hosts/payload/run --payload "$work/payload/payload.bin" --seconds "$2" --out "$work/lists" \
        --command "hosts/el3/run --seconds $patience $option --board '$board' --mode none --kernel IMAGE" "tests/program/lists/$list.list" \
        > "$work/said" 2>&1
    ./psci compare --limit "$patience" --profile hosts/payload/profiles/el3 "$work/lists/$list.record" > "$work/out" 2>&1 || status=$?
    grep -s "^# el3: " "$work/el3-lists/el3.log" | grep -v "of the" >> "$work/out" && status=1
    grep "did not end" "$work/said" >> "$work/out" && status=1
    return $status
}

# on the emulated machine: the port as it is, and the faults of which its own C says nothing; those of `lists` by the list
# `port`, others by the list of their name
port_lists() {
    local tool name check list _ text begun took most
    for tool in qemu-system-aarch64 aarch64-linux-gnu-gcc dtc make; do
        command -v "$tool" > /dev/null || { skip "lists at EL3" "$tool"; return; }
    done
    [ -f "$PWD/out/lib/aarch64/libpsci_ffi.a" ] || { skip "lists at EL3" "$PWD/out/lib/aarch64/libpsci_ffi.a"; return; }
    make -s -C hosts/payload "OUT=$work/payload" > "$work/out" 2>&1 || { fail "make -C hosts/payload"; return; }
    for name in beats pending port; do
        begun=$SECONDS
        if listed "" "$patience" "$name"; then pass; else
            fail "hosts/el3 by tests/program/lists/$name.list"
            head -n 5 "$work/out"
        fi
    done
    took=$((SECONDS - begun))
    while IFS='|' read -r name check _ text; do
        case $check in
            lists) list=port ;;
            beats | pending) list=$check ;;
            *) continue ;;
        esac
        say "lists at EL3: the fault $name"
        # a hang gets more time than the port took; an exception ends a run
        if [ "$text" = "did not end" ]; then most=$((30 + 2 * took)); else most=$patience; fi
        if listed "$name" "$most" $list; then fail "$name is not seen by the list $list"
        elif grep -q -- "$text" "$work/out"; then pass; else
            fail "$name is seen by the list $list, which does not say '$text'"
            head -n 5 "$work/out"
        fi
    done < <(hosts/plant --told hosts/el3/faults.edits)
}

# a reset after each single instruction of a call
port_steps() {
    [ "$(uname -m)" = x86_64 ] || { skip "resets after each instruction" "x86-64 processor"; return; }
    has_cc "resets after each instruction" || return
    build_c steps hosts/steps.c hosts/machine.c || return
    told steps
    # a reader that takes its firmware out of the place and puts it back
    sed 's/^READS(call_hw, \(psci_hw.*\))$/READS(call_hw, firmware.full = false, \1, firmware.full = true)/' \
        hosts/steps.c > "$work/taken.c"
    build_c taken "$work/taken.c" hosts/machine.c || return
    if timeout "$patience" "$work/taken" > "$work/out" 2> "$work/err"; then
        fail "hosts/steps.c: a place that a call leaves empty is not told"
    elif grep -q "^psci_hw left a place empty" "$work/err"; then pass; else
        fail "hosts/steps.c does not say which call left a place empty: $(cat "$work/err")"
    fi
}

# what the payload says of registers that change while a core waits, by an emulator of programs
port_registers() {
    local tool
    for tool in aarch64-linux-gnu-gcc qemu-aarch64-static; do
        command -v "$tool" > /dev/null || { skip "registers that change" "$tool"; return; }
    done
    sed 's/cntpct_el0/cntvct_el0/' hosts/payload/call.S > "$work/call.S"
    if aarch64-linux-gnu-gcc -O1 -static -Wall -Wextra -Werror -o "$work/hold" tests/hosts/programs/hold.c "$work/call.S" \
        > "$work/out" 2>&1 && timeout "$patience" qemu-aarch64-static "$work/hold" > "$work/out" 2>&1; then pass; else
        fail tests/hosts/programs/hold.c
        head -n 5 "$work/out"
    fi
}
