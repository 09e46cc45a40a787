# What Linux and other firmware did, beside the built program, sourced by ./test after
# tests/program/program.sh: stored runs, and traces that tools/trace-to-script makes scripts of.

# each stored run that is compressed, unpacked first
stored_runs() {
    local file name stored=$work
    for file in examples/linux/*.psci.xz; do
        has_xz "$file" || continue
        name=$(basename "${file%.psci.xz}")
        xz -dc "$file" > "$work/$name.psci"
        xz -dc "${file%.psci.xz}.out.xz" > "$work/$name.out"
        script "$name"
    done
    has_python hosts/records || return
    hosts/records take examples/linux/recorded.tar.xz "$work/recorded"
    for file in "$work"/recorded/*.psci; do script "recorded/$(basename "${file%.psci}")"; done
}

# bare: answer lines without their messages and numbers, as a trace can be compared with
bare() { sed 's/ #.*//; s/started .*/started/'; }

# each trace in tests/hosts/traces.txt: its script, what was recorded, and the same answers by the program
traces() {
    local file name
    local -a words
    has_python "tools/trace-to-script" || return
    hosts/records take tests/hosts/traces.txt "$work/traces"
    for file in "$work"/traces/*.txt; do
        name=${file%.txt} words=()
        [ ! -f "$name.words" ] || mapfile -t words < "$name.words"
        tools/trace-to-script "${words[@]}" < "$file" > "$work/script"
        if cmp -s "$name.psci" "$work/script"; then pass; else fail "the script of $file"; fi
        [ ! -f "$name.clock" ] || traced_clock "$name" "${words[@]}"
        tools/trace-to-script --answers "${words[@]}" < "$file" > "$work/lines"
        if cmp -s "$name.answers" "$work/lines"; then pass; else fail "the answers of $file"; fi
        run replay < "$work/script"
        bare < "$work/out" > "$work/bare" && mv "$work/bare" "$work/out"
        answers "$file"
    done
    # firmware of QEMU without OS-initiated mode and NODE_HW_STATE: PSCI_FEATURES of these differs,
    # in QEMU as it is that of SYSTEM_SUSPEND and SYSTEM_RESET2 too, and nothing else
    long_trace debian-trace 5:1:0 2548:1:0 2555:0:-1
    long_trace qemus-own 5:1:0 6:0:-1 7:0:-1 19:1:0 26:0:-1 27:0:-1 28:0:-1 31:0:-1
    faulty_traces
}

# traced_clock NAME WORD..: a trace with times: the clock of its script, with a time for each event
traced_clock() {
    tools/trace-to-script --clock "$work/clock" "${@:2}" < "$1.txt" > "$work/script"
    if cmp -s "$1.clock" "$work/clock"; then pass; else fail "the clock of $1"; fi
    run show --json < "$work/script"
    tools/show --vcd --clock "$work/clock" < "$work/out" | sed -n 's/^#//p' | head -n -1 > "$work/times"
    if uniq "$1.clock" | cmp -s - "$work/times"; then pass; else fail "the times of $1 in VCD"; fi
}

# long_trace NAME EVENT:OURS:THEIRS..: a trace of Linux on other firmware, with all that differs
long_trace() {
    local name=examples/linux/$1
    shift
    has_xz "$name" || return
    xz -dc "$name.txt.xz" | tools/trace-to-script | cmp -s - <(xz -dc "$name.psci.xz")
    if [ "${PIPESTATUS[*]}" = "0 0 0" ]; then pass; else fail "the script of $name"; fi
    xz -dc "$name.txt.xz" | tools/trace-to-script --answers > "$work/lines"
    paste -d: <(xz -dc "$name.out.xz" | bare) "$work/lines" | awk -F: '$1 != $2' > "$work/out"
    printf '%s\n' "$@" | awk -F: '{ print $1 " return " $2 ":" $1 " return " $3 }' > "$work/lines"
    answers "what differs in $name"
}

# lines that are no lines of a trace
faulty_traces() {
    local line
    for line in $'@5 0 0x84000000 0x0 0x0 0x0 -> 65537\n@4 0 0x84000000 0x0 0x0 0x0 -> 65537' "0 0x84000000 -> 1" "0 0x84000000 0x0 0x0 0x0 -> on" "enter 0" "# delivered 0" \
        "0 0xc4000003 0x9 0x0 0x0 -> 0"; do
        if ! echo "$line" | tools/trace-to-script --acknowledged > "$work/out" 2> "$work/err" &&
            grep -q '^line [12]: ' "$work/err"; then pass; else fail "the trace '$line'"; fi
    done
}
