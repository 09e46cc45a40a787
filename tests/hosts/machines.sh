# Tests of machines that have words of their own (docs/port/BOARDS.md), beside the built program, sourced by ./test:
# their texts and calls, stored ones of twelve boards, records, and descriptions from device trees.

# each fault of a text, calls as they are made and answered, wrong words
machine_texts() { by_python hosts/machine-texts; }

# what Linux would ask of each of ten boards, and calls of two whose boot core is not the first
machine_boards() {
    local file name
    has_python "boards of examples/boards" || return
    for file in examples/boards/*.machine; do
        name=${file%.machine}
        ./psci replay --machine "$file" "$name.calls" > "$work/out" 2> "$work/err"
        if [ $? = 0 ] && cmp -s "$name.answers" "$work/out"; then pass; else
            fail "$name"
            diff "$name.answers" "$work/out" | head -n 5
            head -n 3 "$work/err"
        fi
    done
}

# a record in a machine's words, and what is said of ways to spoil it
machine_records() {
    local want text change status
    has_python "records of machines" || return
    sed 's/^call 0 0xc4000001 0x2 /call 0 0xc4000001 0x44 /' tests/hosts/records/short.record > "$work/words.record"
    while IFS='|' read -r want text change; do
        status=0
        sed "$change" "$work/words.record" > "$work/run.record"
        ./psci compare --machine tests/hosts/records/machine.machine "$work/run.record" \
            > "$work/out" 2> "$work/err" || status=$?
        if [ "$status" = "$want" ] && grep -qF -- "$text" "$work/out" "$work/err"; then pass; else
            fail "./psci compare --machine, $change (status $status, wanted $want with '$text')"
            head -n 5 "$work/out" "$work/err"
        fi
    done < tests/hosts/records/spoiled-words.txt
    named_machines
}

# a record that names its machine is in the words of that: its text stands beside it, by the name of the record or by
# its own, or --machine has it
named_machines() {
    local record=$work/named/run.record beside
    mkdir -p "$work/named"
    { cat "$work/words.record"; echo "# machine machine.machine"; } > "$record"
    compared 3 "its calls are those of the machine machine.machine: give its text by --machine" "$record"
    compared 0 "22 events are answered as by" "$record" --machine tests/hosts/records/machine.machine
    for beside in "$record.machine" "$work/named/machine.machine"; do
        cp tests/hosts/records/machine.machine "$beside"
        compared 0 "22 events are answered as by" "$record"
        compared 0 "are those of the machine machine.machine: $beside" "$record"
        rm "$beside"
    done
}

# faults that are planted in what reads and translates, each of which has to be seen
wrong_machines() { by_python hosts/wrong-machines; }

# small device trees of our own, and all of a kernel package, where one is here
board_trees() { by_python hosts/board-trees; }
device_trees() {
    has_python "device trees" || return
    tests/hosts/device-trees "$program" "$work" --found ||
        { skip "device trees" "package of Debian's kernel for arm64"; return; }
    if timeout "$patience" tests/hosts/device-trees "$program" "$work" > "$work/out" 2>&1; then pass; else
        fail tests/hosts/device-trees
        tail -n 20 "$work/out"
    fi
}
