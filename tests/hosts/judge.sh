# Records of the calls of other firmware (docs/compare/JUDGE.md), sourced by ./test after tests/program/program.sh: the
# stored ones, those that the second model makes, and live ones where QEMU is here.

payload=hosts/payload

# profile_of PEER: records of one firmware by another conduit or loader have one profile
profile_of() {
    local peer=${1%-bits}
    peer=${peer%-smc}
    echo "$payload/profiles/${peer%-uboot}"
}

# each stored record is judged as its stored report says, and its groups are those of the baseline
judged_records() {
    local file peer status
    has_python "stored records of calls" || return
    hosts/records take "$payload/records.tar.xz" "$work/calls"
    hosts/records take "$payload/reports.txt" "$work/reports"
    for file in "$work"/calls/*; do
        peer=$(basename "$file")
        status=0
        touch "$work/reports/$peer.groups" # none is kept where there are no groups
        ./psci compare --limit 7200 --profile "$(profile_of "$peer")" --baseline "$work/reports/$peer.groups" \
            "$file"/*.record > "$work/out" 2> "$work/err" || status=$?
        if [ "$status" = 0 ] && cmp -s "$work/reports/$peer.txt" "$work/out"; then pass; else
            fail "./psci compare, records of $peer (status $status)"
            diff "$work/reports/$peer.txt" "$work/out" | head -n 5
            head -n 3 "$work/err"
        fi
    done
    judged_ours
}

# ours differs in nothing; its lists have each answer that a call may have, and its storms all but two, which
# end a life
judged_ours() {
    local peer
    for peer in el3 el3-bits ours-in-tfa ours-on-kvm; do
        if grep -q "^differs\|^undecided" "$work/reports/$peer.txt"; then fail "records of $peer"; else pass; fi
    done
    ./psci compare --tallies "$work"/calls/el3/*.record > "$work/out"
    if cmp -s "$work/out" "$work/reports/el3.tallies"; then pass; else fail "$payload/reports.txt: el3.tallies"; fi
    if grep -q never "$work/out"; then fail "answers that never came: $(grep -c never "$work/out")"; else pass; fi
    ./psci compare --tallies "$work"/calls/el3/storm-*.record | grep never | cut -d' ' -f2,4 > "$work/out"
    if [ "$(tr '\n' ' ' < "$work/out")" = "SYSTEM_RESET stop SYSTEM_RESET2 stop " ]; then pass; else
        fail "answers that never came in storms: $(cat "$work/out")"
    fi
}

# judged_as STATUS TEXT WORD..: what ./psci compare ends with, and a text in what it says; a search may take as long as
# it does here
judged_as() {
    local want=$1 text=$2 status=0 limit=()
    shift 2
    [[ " $* " != *" --profile "* ]] || limit=(--limit "$patience")
    ./psci compare "${limit[@]}" "$@" > "$work/out" 2> "$work/err" || status=$?
    if [ "$status" = "$want" ] && grep -qF -- "$text" "$work/out" "$work/err"; then pass; else
        fail "./psci compare $* (status $status, wanted $want with '$text')"
        head -n 5 "$work/out" "$work/err"
    fi
}

# a short record, what is said of each way to spoil it, and each form of a report
judged_words() {
    local short=tests/hosts/records/calls.record profile=tests/hosts/records/calls.profile status text change
    has_python "records of calls" || return
    judged_as 0 "agrees    records/calls" --profile $profile $short
    judged_as 0 "ok 1 - records/calls" --tap --profile $profile $short
    judged_as 2 "needs --profile" $short
    judged_as 3 "not a line of a profile" --profile $short $short
    judged_as 4 "No such file" --profile $profile "$work/there-is-none"
    judged_as 0 "functions VERSION CPU_ON_64" --declare $short
    while IFS='|' read -r status text change; do
        sed "$change" $short > "$work/calls.record"
        judged_as "$status" "$text" --each --profile $profile "$work/calls.record"
    done < tests/hosts/records/spoiled-calls.txt
    sed 's/fffffffffffffffb/fffffffffffffffe/' $short > "$work/calls.record"
    judged_as 6 "1 differs" --junit "$work/junit" --profile $profile "$work/calls.record"
    if grep -q '<failure message="CPU_ON: theirs -2' "$work/junit"; then pass; else fail "./psci compare --junit"; fi
    judged_as 6 "not ok 1" --tap --profile $profile "$work/calls.record"
    judged_as 6 "1 group" --write-baseline "$work/groups" --profile $profile "$work/calls.record"
    judged_as 0 "the groups are those" --baseline "$work/groups" --profile $profile "$work/calls.record"
    judged_as 6 "vanished group" --baseline "$work/groups" --profile $profile $short
    judged_as 6 "new group" --baseline /dev/null --profile $profile "$work/calls.record"
    judged_as 0 "| CPU_ON | -5 | 1 | 0 |" --tallies $short
    judged_as 7 "undecided" --bound 1 --profile $profile $short
    sed 's/77 0 \.$/77 20010 ./' $short > "$work/calls.record"
    { cat $profile; echo "keeps x4-x17"; } > "$work/keeps.profile"
    judged_as 6 "x4 to x17 changed, which its profile says it keeps" --profile "$work/keeps.profile" "$work/calls.record"
    # one record of a firmware tells its version of the calling convention for all
    sed 's/8400000a 84000000 0 0 0/80000000 84000000 0 0 10002/;/^psci: open 0 0 /d' $short > "$work/version.record"
    { cat $profile; echo "functions ours 80000000"; } > "$work/version.profile"
    judged_as 0 "2 records: 2 agrees" --profile "$work/version.profile" "$work/version.record" $short
    judged_as 6 "2 records: 1 agrees, 1 differs" --profile "$work/version.profile" "$work/version.record" \
        "$work/calls.record"
    judged_as 6 "in version 1.2 of the convention" --profile "$work/version.profile" "$work/version.record" \
        "$work/calls.record"
    judged_later
}

# later STATUS TEXT FUNCTIONS CHANGE: the short record with a call of PSCI 1.2 or 1.3, of a firmware that has these
later() {
    sed "$4" tests/hosts/records/calls.record > "$work/calls.record"
    { cat tests/hosts/records/calls.profile; echo "version 10003"; echo "functions ours $3"; } > "$work/later.profile"
    judged_as "$1" "$2" --profile "$work/later.profile" "$work/calls.record"
}

# functions of PSCI 1.2 and 1.3 have names, and SYSTEM_OFF2 ends a system that has it
judged_later() {
    local call='s/^psci: call 0 a .*/psci: call 0 a 28 29 1' off2='s/^psci: open 0 b .*/psci: open 0 b 2a c4000015 1 0 0 ./'
    has_python "calls of PSCI 1.2 and 1.3" || return
    later 0 "agrees" "" "$call c4000015 1 0 0 ffffffffffffffff 1 0 0 0 ./"
    later 6 "1 x SYSTEM_OFF2: theirs 0; ours -1" "" "$call c4000015 1 0 0 0 1 0 0 0 ./"
    later 6 "1 x CLEAN_INV_MEMREGION: theirs 0; ours -1" "" "$call c4000016 0 40 0 0 0 40 0 0 ./"
    later 6 "1 x CLEAN_INV_MEMREGION_ATTRIBUTES: theirs 1" "" "$call c4000017 0 0 0 1 0 0 0 0 ./"
    later 0 "agrees" CLEAN_INV_MEMREGION_ATTRIBUTES_64 "$call c4000017 0 0 0 1 0 0 0 0 ./"
    later 0 "agrees" SYSTEM_OFF2_64 "$call 8400000a c4000015 0 0 1 c4000015 0 0 0 ./"
    later 6 "FEATURES of SYSTEM_OFF2_64: theirs 1; ours -1" "" "$call 8400000a c4000015 0 0 1 c4000015 0 0 0 ./"
    later 0 "agrees" "SYSTEM_OFF2 SYSTEM_OFF2_64" "$off2"
    later 7 "the record breaks off" "" "$off2"
}

# records that the second model and the program make: none differs, and of changed ones nine in ten are
# found; and the reducer of lists
judged_model() {
    local way
    for way in "made 20" "changed 60" "program 8" "spoiled 3" "shorter 40"; do
        has_python "tests/hosts/judged $way" || return
        # shellcheck disable=SC2086
        if tests/hosts/judged $way > "$work/out" 2>&1; then pass; else
            fail "tests/hosts/judged $way"
            tail -n 10 "$work/out"
        fi
    done
}

# stored records with lines lost, doubled, moved or of another one: each is told
judged_broken() {
    has_python tests/hosts/broken-records || return
    if tests/hosts/broken-records 1000 > "$work/out" 2>&1; then pass; else
        fail tests/hosts/broken-records
        tail -n 10 "$work/out"
    fi
}

# the payload's lists reach each bit: by the commit a 64th of the faults that hosts/payload/bits plants; without the lists
# of bits that is told
judged_bits() {
    local part
    has_python "$payload/bits" || return
    part=$((16#$(git rev-parse --short=6 HEAD 2> /dev/null || echo 0) % 64 + 1))
    if "$payload/bits" --part "$part/64" > "$work/out" 2>&1; then pass; else
        fail "$payload/bits, part $part"
        tail -n 10 "$work/out"
    fi
    "$payload/bits" --without 'storm|bits' --only 'AFFINITY_INFO_64: bit (9|1[0-5]) of x1' > "$work/out" 2>&1
    if [ $? = 1 ] && [ "$(grep -c '^not found: ' "$work/out")" = 7 ]; then pass; else
        fail "$payload/bits: lists without a bit are not told"
        tail -n 5 "$work/out"
    fi
}

# is_gone PROCESS: whether it executes no more, soon
is_gone() {
    for _ in {1..6000}; do
        [ -e "/proc/$1" ] && ! grep -q "^State:.[ZX]" "/proc/$1/status" || return 0
        sleep 0.1
    done
    return 1
}

# a machine that does not end is ended with all that it has started, and what it printed is kept
judged_ended() {
    local short=tests/hosts/records/calls.record
    has_python "machines that do not end" || return
    if "$payload/run" --seconds 20 --payload $short --out "$work/ended" features --command \
        "sh -c 'cat $short; sleep 900 & echo \$! > $work/started; wait'" > "$work/out" 2>&1 &&
        grep -q "^features: 20 lines, it did not end in 20 seconds$" "$work/out" &&
        cmp -s "$work/ended/features.record" <(grep "^psci: " $short) &&
        is_gone "$(cat "$work/started")"; then pass; else
        fail "$payload/run, a machine that does not end"
        head -n 3 "$work/out"
    fi
    if ! "$payload/run" --payload $short --out "$work/ended" --command there-is-none features > "$work/out" 2>&1 &&
        [ "$(cat "$work/out")" = "run: there-is-none: No such file or directory" ]; then pass; else
        fail "$payload/run, a command that is not there"
    fi
}

# what a storm has kept is in the record as its life ends, also where a core still waits to write it
judged_lines() {
    printf 'psci: %s .\n' 'open 2 3 4 84000002 0 0 0' 'call 1 5 6 7 1 c4000003 2 0 0 0 0 0 0 0' \
        'open 0 0 9 84000008 0 0 0' > "$work/lines"
    gcc -Wall -Werror -o "$work/kept-lines" tests/hosts/programs/kept-lines.c > "$work/said" 2>&1 &&
        "$work/kept-lines" | grep . > "$work/out"
    answers "the lines that the payload has kept"
}

# QEMU's own firmware, asked now: the groups that do not hang on how its threads ran
judged_live() {
    local tool profile
    has_python "QEMU's own firmware" || return
    for tool in qemu-system-aarch64 aarch64-linux-gnu-gcc make; do
        command -v "$tool" > /dev/null || { skip "QEMU's own firmware" "$tool"; return; }
    done
    if ! make -s -C "$payload" "OUT=$work/payload" > "$work/out" 2>&1; then
        fail "make -C $payload"
        head -n 5 "$work/out"
        return
    fi
    played --on qemu --out "$work/live" features words
    # what waits for another core, or for a timer, has a clock that stands still where QEMU does
    played --on qemu --one-thread --out "$work/live" affinity standby lives
    profile=$(profile_of qemu)
    judged_as 6 "1 x FEATURES of CPU_ON: theirs -1; ours 0" --profile "$profile" "$work"/live/*.record
    judged_as 0 "agrees    live/lives:" --profile "$profile" "$work/live/lives.record"
    judged_as 0 "agrees    live/standby" --profile "$profile" "$work/live/standby.record"
    judged_places
    judged_again "$profile"
    judged_virtio "$profile"
    judged_kvm
}

# a core enters at each entry point far from the image; where these are not written, it doesn't
judged_places() {
    played --on qemu --one-thread --out "$work/live" bits-on-64
    if [ "$(grep -c '^psci: enter 1 ' "$work/live/bits-on-64.record")" = 64 ] &&
        ! grep -q '^psci: \(lacks\|late\|fault\)' "$work/live/bits-on-64.record"; then pass; else
        fail "$payload/places.c"
    fi
    cp -r "$payload" "$work/without" && sed -i '/^    places_ready();/d' "$work/without/play.c" &&
        make -s -C "$work/without" "OUT=$work/without/made" > "$work/out" 2>&1 || fail "$payload without places"
    "$payload/run" --seconds 5 --payload "$work/without/made/payload.bin" --on qemu --out "$work/without" \
        bits-on-64 > "$work/out" 2>&1
    if [ "$(grep -c '^psci: enter 1 ' "$work/without/bits-on-64.record")" -lt 64 ]; then pass; else
        fail "$payload/places.c: entry points that are not written are not told"
    fi
}

# the monitor for KVM compiles; booting it takes minutes
judged_kvm() {
    [ -e /usr/aarch64-linux-gnu/lib/libc.a ] || { skip "$payload/kvm" libc6-dev-arm64-cross; return; }
    if aarch64-linux-gnu-gcc -O2 -Wall -Wextra -Werror -std=gnu11 -static -pthread -o "$work/vmm" \
        "$payload/kvm/vmm.c" > "$work/out" 2>&1; then pass; else fail "$payload/kvm/vmm.c"; fi
    if "$payload/kvm/run" > "$work/out" 2>&1 || ! grep -q "missing the folder" "$work/out"; then
        fail "$payload/kvm/run without words"
    else pass; fi
}

# judged_virtio PROFILE: a machine whose UART is hidden, with a virtio console of either form
judged_virtio() {
    local form machine="qemu-system-aarch64 -cpu cortex-a57 -smp 4 -m 1024 -display none -monitor none -net none"
    command -v dtc > /dev/null || { skip "a virtio console" dtc; return; }
    $machine -M "virt,dumpdtb=$work/virt.dtb" > /dev/null 2>&1
    dtc -q -I dtb -O dts "$work/virt.dtb" | sed 's/pl011@.*{$/& status = "disabled";/' |
        dtc -q -I dts -O dtb -o "$work/virt.dtb"
    for form in true false; do
        played --one-thread --out "$work/virtio-$form" lives --command "$machine -M virt -dtb $work/virt.dtb
            -global virtio-mmio.force-legacy=$form -chardev stdio,id=it -device virtio-serial-device
            -device virtconsole,chardev=it -kernel IMAGE"
        judged_as 0 "agrees    virtio-$form/lives: 1" --profile "$1" "$work/virtio-$form/lives.record"
    done
    judged_unknown "$1"
}

# tree_without NAME: a device tree in which the payload does not know what has this name
tree_without() {
    $machine -M "virt,dumpdtb=$work/virt.dtb" > /dev/null 2>&1
    dtc -q -I dtb -O dts "$work/virt.dtb" | sed "s/$1/nobody,it/g" | dtc -q -I dts -O dtb -o "$work/virt.dtb"
}

# judged_unknown PROFILE: without an interrupt controller what sleeps is not played, which the payload says; without a
# console it says so in memory, where the runner reads it
judged_unknown() {
    tree_without arm,cortex-a15-gic
    played --one-thread --out "$work/unknown" lives standby --command "$machine -M virt -dtb $work/virt.dtb -serial stdio -kernel IMAGE"
    if grep -q "^standby: 0 lines, the device tree has no interrupt controller that the payload knows$" "$work/out"; then pass; else
        fail "$payload/run on an interrupt controller that the payload does not know"
        tail -n 3 "$work/out"
    fi
    judged_as 0 "agrees    unknown/lives: " --profile "$1" "$work/unknown/lives.record"
    tree_without arm,pl011
    "$payload/run" --seconds 30 --payload "$work/payload/payload.bin" --out "$work/unknown" lives --command "$machine -dtb $work/virt.dtb
        -M virt,memory-backend=it -object memory-backend-file,id=it,size=1G,mem-path=MEMORY,share=on -serial null -kernel IMAGE" > "$work/out" 2>&1
    if grep -q "^lives: 0 lines, the device tree has no console that the payload knows, it did not end" "$work/out"; then pass; else
        fail "$payload/run on a console that the payload does not know: the word in its memory"
        tail -n 3 "$work/out"
    fi
}

# played WORD..: a run of the payload, which ends by itself long before the limit
played() {
    "$payload/run" --seconds "$patience" --payload "$work/payload/payload.bin" "$@" > "$work/out" 2>&1 &&
        ! grep -q "did not end" "$work/out" || { fail "$payload/run $*"; tail -n 3 "$work/out"; }
}

# judged_again PROFILE: one call is left of a list that differs, and a storm that is played again has the same calls
judged_again() {
    local way
    played --on qemu --out "$work/live" --shorten "$1" words
    if grep -q "^words: 2 of 68 " "$work/out"; then pass; else
        fail "$payload/run --shorten: $(head -n 1 "$work/out")"
    fi
    for way in first second; do played --on qemu --one-thread --out "$work/$way" storm-down-1; done
    played --on qemu --out "$work/third" storm-down-1
    if tests/program/same-draws "$work/first/storm-down-1.record" "$work"/{second,third}/storm-down-1.record \
        > "$work/out" 2>&1; then pass; else
        fail "a storm that is played again has other calls"
        head -n 5 "$work/out"
    fi
}
