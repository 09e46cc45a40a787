# The port at EL3 (hosts/el3) and the records of ports, beside the built program, sourced by ./test
# after tests/program/program.sh: stored records, wrong ones, and Linux on the firmware where QEMU, a kernel and
# the archive are here.

# compared STATUS TEXT FILE [OPTION..]: what ./psci compare ends with, and a text in what it says
compared() {
    local status=0
    ./psci compare "${@:4}" "$3" > "$work/out" 2> "$work/err" || status=$?
    if [ "$status" = "$1" ] && grep -qF -- "$2" "$work/out" "$work/err"; then pass; else
        fail "./psci compare ${*:4} $3 (status $status, wanted $1 with '$2')"
        head -n 5 "$work/out" "$work/err"
    fi
}

# each stored record of Linux on the port, asked again, in the words of its machine where it names one; it has as many events
# as the page says
el3_records() {
    local file name many
    has_python "records of hosts/el3" || return
    sed -n '/^| Record | Events/,/^$/p' hosts/el3/README.md | awk -F '|' '{
        split($3, many, ";")
        for (at = split($2, names, ","); at; at--) {
            gsub(/[ `]/, "", names[at]); gsub(/[ ,]/, "", many[at])
            print names[at], many[at]
        }
    }' > "$work/rows"
    hosts/records take hosts/el3/runs.tar.xz "$work/runs"
    for file in "$work"/runs/*.record; do
        name=$(sed -n 's/^# machine //p' "$file")
        # of 64 cores the second model takes minutes
        if [[ $file = *-sixty-four.* ]]; then compared 0 "are answered as by the proved program" "$file" --quick
        else compared 0 "safe after each of them" "$file" ${name:+--machine "hosts/el3/machines/$name"}; fi
        name=$(basename "$file" .record) many=$(sed -n 's/.*: \([0-9]*\) events are answered.*/\1/p' "$work/out")
        if grep -qx "$name $many" "$work/rows"; then pass; else fail "hosts/el3/README.md: $name has $many events"; fi
    done
}

# a stored record whose MPIDRs count in affinity field 1, and whose last core boots, held to other machines: the
# boot core is another, two cores have each other's MPIDR, a core has one that is not there, two words are exchanged
other_machines() {
    local text change machine=hosts/el3/machines/affinity-1.machine
    has_python "other machines for a record" || return
    hosts/records take hosts/el3/runs.tar.xz "$work" affinity-1.record
    grep -v ^mpidr "$work/affinity-1.record" > "$work/run.record"
    compared 0 "are answered as by the proved program" "$work/run.record" --quick --machine $machine
    while IFS='|' read -r text change; do
        sed "$change" $machine > "$work/other.machine"
        compared 6 "$text" "$work/run.record" --quick --machine "$work/other.machine"
    done << 'END'
event 1, |s/^boot 0x300/boot 0x0/
event 1, |s/^boot 0x300/boot 0x200/
the proved program: return 0 #0 start |s/^core 0x0$/core 0x1000/; s/^core 0x100$/core 0x0/; s/^core 0x1000/core 0x100/
no core has the MPIDR 0x200|s/^core 0x200/core 0x201/
the proved program: stop |s/^word 0x00010022/word 0x000100ff/; s/^word 0x00010011/word 0x00010022/; s/^word 0x000100ff/word 0x00010011/
END
    sed 's/^core 0x200/core 0x201/' $machine > "$work/other.machine"
    compared 3 "line 2: these are not the MPIDRs of the machine" "$work/affinity-1.record" --machine "$work/other.machine"
}

# the lists of each machine that is stored are those of its text, and of a board's text
el3_machines() {
    local file rest="exec 0x40000000-0x60000000 boot 0x40200000 starts 4294967295 lives 65535"
    has_python "machines of hosts/el3" || return
    for file in hosts/el3/machines/*.machine; do
        hosts/el3/machine table "$file" > "$work/out" 2>&1
        if cmp -s "$work/out" "${file%machine}h"; then pass; else fail "hosts/el3/machine table $file"; fi
    done
    hosts/el3/machine text "(2 2) $rest" > "$work/out" 2>&1
    if cmp -s "$work/out" hosts/el3/machines/four.machine; then pass; else fail "hosts/el3/machine text"; fi
    hosts/el3/machine text "((4 4) (4 4)) $rest" > "$work/out" 2>&1
    if cmp -s "$work/out" hosts/el3/machines/sixteen.machine; then pass; else fail "hosts/el3/machine text"; fi
    machine_refuses "a number in decimal" text "(2 x) exec"
    sed 's/0x200/0x210/' hosts/el3/machines/affinity-1.machine > "$work/far.machine"
    machine_refuses "QEMU has rows of 16 cores" table "$work/far.machine"
    sed 's/^boot 0x300/boot 0x301/' hosts/el3/machines/affinity-1.machine > "$work/far.machine"
    machine_refuses "machine fault 4" table "$work/far.machine"
}

# machine_refuses TEXT WORD..: hosts/el3/machine ends with 1, and says this
machine_refuses() {
    local status=0
    hosts/el3/machine "${@:2}" > "$work/out" 2>&1 || status=$?
    if [ $status = 1 ] && grep -qF -- "$1" "$work/out"; then pass; else fail "hosts/el3/machine ${*:2}"; fi
}

# spoiled STATUS TEXT SED-SCRIPT: the short record, changed by sed
spoiled() {
    sed "$3" tests/hosts/records/short.record > "$work/run.record"
    compared "$1" "$2" "$work/run.record"
}

# a short record, and what is said of each way to spoil it
wrong_records() {
    local status text change
    has_python "wrong records" || return
    compared 0 "22 events are answered as by the proved program" tests/hosts/records/short.record
    while IFS='|' read -r status text change; do
        spoiled "$status" "$text" "$change"
    done < tests/hosts/records/spoiled.txt
    ./psci compare --quick --script "$work/kept.psci" tests/hosts/records/short.record > "$work/out"
    ./psci replay < "$work/kept.psci" > "$work/lines"
    if cmp -s "$work/kept.psci.out" "$work/lines"; then pass; else fail "./psci compare --script"; fi
    compared 4 "No such file" "$work/there-is-none"
}

# what hosts/el3/stress adds up says by which program events were answered
stress_sums() {
    (
        eval "$(sed -n '/^sums() {/,/^}/p' hosts/el3/stress)"
        printf '%s\n' "1.record: 22 events are answered as by the proved program (call 7, deliver 5)" \
            "2.record: 3 events are answered as by an unproved program (call 3)" \
            "3.record: 1 event is answered as by an unproved program (call 1)" > "$work/stress.compared"
        sums "$work/stress.compared"
    ) > "$work/out" 2>&1
    printf '%s\n' "call: 11" "deliver: 5" "events answered as by an unproved program: 4" \
        "events answered as by the proved program: 22" > "$work/lines"
    answers "the sums of hosts/el3/stress"
}

# what compare, the judge and sweeps say at their end, by which program and of how much; faults that are planted there,
# and sentences that are made elsewhere, are found
sentences() { by_python docs/sentences; }

# what the port's assembly does to processors, and the faults that are told there
el3_silicon() {
    local tool name check _ text
    for tool in aarch64-linux-gnu-gcc qemu-aarch64-static python3; do
        command -v "$tool" > /dev/null || { skip "hosts/el3 on processors that are played" "$tool"; return; }
    done
    if timeout "$patience" hosts/el3/checks/silicon > "$work/out" 2>&1; then pass; else
        fail hosts/el3/checks/silicon
        head -n 10 "$work/out"
    fi
    while IFS='|' read -r name check _ text; do
        [ "$check" = silicon ] || continue
        if FAULT=$name timeout "$patience" hosts/el3/checks/silicon > "$work/out" 2>&1; then
            fail "$name is not seen by silicon"
        elif grep -q -- "$text" "$work/out"; then pass; else
            fail "$name is seen by silicon, which does not say '$text'"
            head -n 5 "$work/out"
        fi
    done < <(hosts/plant --told hosts/el3/faults.edits)
}

# planted HOST NAME FOLDER: makes the folder one with the host's sources, in which this fault of its list is planted
planted() {
    rm -rf "$3"
    cp -r "hosts/$1" "$3"
    hosts/plant "hosts/$1/faults.edits" "$2" "$3" && ! diff -rq "hosts/$1" "$3" > "$work/out"
}

# each fault still fits the port's sources, and the port still compiles with it
el3_faults() {
    local name copy=$work/el3-copy
    has_python "faults of hosts/el3" || return
    command -v aarch64-linux-gnu-gcc > /dev/null ||
        skip "compiling faults of hosts/el3" aarch64-linux-gnu-gcc
    for name in $(sed -n 's/^== //p' hosts/el3/faults.edits); do
        if planted el3 "$name" "$copy" && compiles "$copy"; then pass; else fail "hosts/el3/faults.edits: $name"; fi
    done
}

# compiles FOLDER: whether this port does with its record, where there is a compiler
compiles() {
    command -v aarch64-linux-gnu-gcc > /dev/null || return 0
    make -s -C "$1" TOP="$PWD" OUT="$work/el3-objects" FLAGS="-DRECORD -DLOSE=5" clean objects >> "$work/out" 2>&1
}

# el3_says TEXT WORD..: hosts/el3/run refuses these words with this text, with no more tools than are named
el3_says() {
    local status=0 text=$1
    shift
    PATH=$work/few hosts/el3/run "$@" > "$work/out" 2>&1 || status=$?
    if [ "$status" = 1 ] && grep -qF -- "$text" "$work/out"; then pass; else
        fail "hosts/el3/run $* (status $status, wanted 1 with '$text')"
        head -n 3 "$work/out"
    fi
}

# what is missing, and what there is not; when a key is pressed, and a run ended
el3_words() {
    local tool
    mkdir -p "$work/few"
    for tool in bash dirname env; do ln -sf "$(command -v $tool)" "$work/few/$tool"; done
    el3_says "run: missing qemu-system-aarch64 aarch64-linux-gnu-gcc make dtc python3 apt-get" each
    el3_says "run: unknown option --fast; see --help" --fast
    has_python "hosts/el3/press" || return
    if tests/hosts/pressed > "$work/out" 2>&1; then pass; else fail tests/hosts/pressed; cat "$work/out"; fi
    misses_press 's/ALIKE = 1, 3/ALIKE = 1, 2/'
    misses_press 's/ if levels == .* else \[\]$//'
    misses_press 's/ if at in self.looks else \[\]//'
    misses_press 's/self.rest + self.file/self.file/'
}

# misses_press EDIT: what is pressed by hosts/el3/press that is changed so is told
misses_press() {
    sed "$1" hosts/el3/press > "$work/press"
    if cmp -s hosts/el3/press "$work/press" || tests/hosts/pressed "$work/press" > "$work/out" 2>&1; then
        fail "tests/hosts/pressed lets this through: $1"
    else pass; fi
}

# can_boot: whether there is what a machine at EL3 wants: tools, a built archive, and what was downloaded before
can_boot() {
    local tool name
    has_python "Linux at EL3" || return
    for tool in qemu-system-aarch64 aarch64-linux-gnu-gcc dtc make; do
        command -v "$tool" > /dev/null || { skip "Linux at EL3" "$tool"; return 1; }
    done
    for name in "$cache/packages/bin/busybox" "$PWD/out/lib/aarch64/libpsci_ffi.a"; do
        [ -f "$name" ] || { skip "Linux at EL3" "$name"; return 1; }
    done
}

# what the page says that calls take is what is counted, within one in a hundred, of those that stop in twenty, since a core
# may wait for another; a planted count is told
el3_cost() {
    can_boot || return
    if EL3_OUT=$work/el3-cost hosts/el3/cost > "$work/counted" 2> "$work/err"; then pass; else fail hosts/el3/cost; return; fi
    sed -n '/^## What it costs/,/^## /s/^    \(.*: [0-9]*\)$/cost: \1/p' hosts/el3/README.md | grep -v ': firmware' > "$work/lines"
    if costs_agree "$work/counted"; then pass; else fail "hosts/el3/README.md says of calls what hosts/el3/cost does not print"; fi
    sed 's/VERSION: /VERSION: 1/' "$work/counted" > "$work/planted"
    if costs_agree "$work/planted"; then fail "a planted count of hosts/el3/cost is not told"; else pass; fi
}

# costs_agree COUNTED: the same calls as in $work/lines, and nearly the same numbers
costs_agree() {
    paste -d '|' "$work/lines" "$1" | awk -F '[:|]' '
        NF != 6 || $2 != $5 || ($3 - $6) ^ 2 > ($6 / (NR > 6 ? 20 : 100) + 1) ^ 2 { print; bad = 1 } END { exit bad || NR != 11 }' > "$work/out" ||
        { cat "$work/out"; false; }
}

cache=${GUMDARTS_CACHE:-$HOME/.cache/gumdarts}
space="exec 0x40000000-0x60000000 boot 0x40200000 starts 4294967295"

# Linux on the firmware: by boards, in both modes, on many cores
el3_live_boards() {
    local took
    can_boot || return
    live probe --payload probe
    live pc each boot-core idle suspend-5 vectors
    live osi --mode osi each boot-core idle suspend-5
    live extended --board "(2 2) $space lives 65535 format extended" each idle
    live max --cpu max each vectors
    live a64fx --cpu a64fx --gic 3 each
    live neoverse-n1 --cpu neoverse-n1 --gic 3 each
    live sixteen --board "((4 4) (4 4)) $space lives 65535" boot-core idle
}

# on a machine with words of its own, and with faults planted there
el3_live_faults() {
    local took=0
    can_boot || return
    live affinity-1 --machine hosts/el3/machines/affinity-1.machine each boot-core idle suspend-5
    live affinity-1-osi --machine hosts/el3/machines/affinity-1.machine --mode osi each boot-core idle
    live_shut
    live_fault wrong-boot-core "event 1, "
    live_fault wrong-mpidr "the proved program: return 0 #1 start 2 "
    live_slow
}

# with accesses that have to be aligned, frames that are lost, wake-ups without cause, three lives, a reset that nobody
# has ordered, and a kernel that begins another
el3_live_more() {
    local took
    can_boot || return
    live strict --strict each idle
    live lost-frames --lose 5 each suspend-5
    live roused --lose 5 --rouse 3 each boot-core suspend-5
    if grep -q ", parks [1-9]" "$work/el3-roused/el3.log"; then pass; else fail "hosts/el3/run --rouse 3: no core parks"; fi
    live_unsent
    live three-lives --board "(2 2) $space lives 3" each reboot
    live cut --reset-at "guest: core 2 off" each idle
    broken_off "$work/cut.record.before"
    [ -e "$cache/kexec/fetched" ] || { skip "kexec at EL3" "$cache/kexec"; return; }
    live kexec each kexec each boot-core idle suspend-5
}

# broken_off FILE: a record that a reset broke off, maybe between a start and its entry, is answered as by the program
broken_off() {
    local status=0
    ./psci compare "$1" > "$work/out" 2> "$work/err" || status=$?
    if grep -q "are answered as by the proved program" "$work/out" && { [ $status = 0 ] ||
        { [ $status = 7 ] && grep -q "^started and never entered" "$work/out"; }; }; then pass; else
        fail "./psci compare $1 (status $status)"
        head -n 5 "$work/out" "$work/err"
    fi
}

# live NAME WORD..: a run, which has to end well and to be answered as by the program; leaves in $took what it took
live() {
    local name=$1 begun=$SECONDS
    shift
    say "Linux at EL3: $name"
    if EL3_OUT=$work/el3-$name hosts/el3/run --seconds "$patience" --record "$work/$name.record" "$@" \
        > "$work/out" 2>&1; then pass; else
        fail "hosts/el3/run $*"
        tail -n 20 "$work/out"
        return
    fi
    took=$((SECONDS - begun))
    ! grep -q "did not\|LOST" "$work/out" || fail "hosts/el3/run $*: $(grep "did not\|LOST" "$work/out" | head -n 1)"
    compared 0 "are answered as by the proved program" "$work/$name.record" --machine "$work/$name.record.machine" ${quick-}
}

# a port that is right and slow, in which cores are inside a call as a storm ends: the judge finds nothing
live_slow() {
    local board="4 exec 0x40000000-0x60000000 boot 0x40200000 starts 4294967295 lives 65535"
    say "Lists at EL3: a CPU_ON takes 150 milliseconds"
    if make -s -C hosts/payload "OUT=$work/payload" > "$work/out" 2>&1 && EL3_OUT=$work/el3-slow hosts/payload/run \
        --payload "$work/payload/payload.bin" --seconds "$patience" --out "$work/slow" tests/program/lists/slow-storm.list \
        --command "hosts/el3/run --seconds $patience --fault slow-on --board '$board' --mode none --kernel IMAGE" > "$work/out" 2>&1
    then pass; else
        fail "hosts/payload/run --command 'hosts/el3/run --fault slow-on ..'"
        tail -n 5 "$work/out"
    fi
    compared 0 "1 agrees" "$work/slow/slow-storm.record" --limit "$patience" --profile hosts/payload/profiles/el3
}

# a processor with SVE, which EL3 does not let through: its first use is told, once, and Linux goes no further
live_shut() {
    say "Linux at EL3: the fault shut-features"
    if EL3_OUT=$work/el3-shut hosts/el3/run --cpu max --seconds "$patience" --fault shut-features > "$work/out" 2>&1; then
        fail "hosts/el3/run --cpu max --fault shut-features ends well"
    elif [ "$(grep -c "exception 8, esr 0x66000000" "$work/out")" = 1 ]; then pass; else
        fail "hosts/el3/run --cpu max --fault shut-features does not tell one exception"
        tail -n 5 "$work/out"
    fi
}

# frames are lost, and nothing is sent again, or after one ring of the timer nothing more: Linux misses cores. That of
# SYSTEM_OFF may be lost, too
live_unsent() {
    local name
    for name in never-again one-try; do
        say "Linux at EL3: the fault $name"
        EL3_OUT=$work/el3-unsent hosts/el3/run --seconds "$patience" --lose 5 --fault $name --end-at "did not come" \
            each each boot-core each > "$work/out" 2>&1
        if grep -q "^guest: core [0-9] did not come" "$work/out"; then pass; else
            fail "hosts/el3/run --lose 5 --fault $name: each core comes"
            tail -n 5 "$work/out"
        fi
    done
}

# live_fault NAME TEXT: a port with this fault on the same machine, whose record shows it, whatever Linux did; it may
# hang, and gets more time than what ran before
live_fault() {
    local machine=hosts/el3/machines/affinity-1.machine
    say "Linux at EL3: the fault $1"
    EL3_OUT=$work/el3-fault hosts/el3/run --seconds $((300 + 5 * took)) --record "$work/fault.record" --fault "$1" \
        --machine $machine > "$work/out" 2>&1
    compared 6 "$2" "$work/fault.record" --quick --machine $machine
}
