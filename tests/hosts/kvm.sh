# The library as the PSCI of KVM's guests (hosts/kvm), sourced by ./test after tests/hosts/judge.sh: stored records of
# Linux, and guests on QEMU where it, the kernels and the archive are here.

# each stored record of a Linux guest, asked again
kvm_records() {
    local file
    has_python "records of hosts/kvm" || return
    for file in hosts/kvm/runs/*.record.xz; do
        has_xz "$file" || continue
        xz -dc "$file" > "$work/run.record"
        compared 0 "safe after each of them" "$work/run.record"
    done
}

# built_turns FOLDER: its cores.c and record.c with vCPUs that are drawn, in place of KVM
built_turns() {
    cc -std=gnu11 -O2 -pthread -Wall -Wextra -Werror -Iinclude -Ihosts -I"$1" -o "$work/turns" \
        tests/hosts/programs/turns.c "$1"/{cores,record}.c hosts/pool.c "$archive" > "$work/err" 2>&1
}

# what drawn vCPUs do in several lives is recorded, and asked again; three planted faults are seen
kvm_turns() {
    local seed fault copy=$work/kvm
    has_cc "turns of a guest" && has_python "turns of a guest" || return
    built_turns hosts/kvm || { fail "tests/hosts/programs/turns.c"; head -n 20 "$work/err"; return; }
    for seed in 1 2; do
        "$work/turns" "$seed" 3000 "$work/run.record" \
            "(1 3) exec 0x40000000-0x50000000 boot 0x40200000 starts 6 lives 40" || fail "turns $seed"
        compared 0 "safe after each of them" "$work/run.record"
    done
    if grep -q "^enter 0x0 3 " "$work/run.record"; then pass; else fail "turns: too few lives"; fi
    sed '/^begins 0x101 /d' "$work/run.record" > "$work/unbegun.record"
    compared 6 "in no run: it has not begun" "$work/unbegun.record"
    sed '/^enter 0x[1-9]/q' "$work/run.record" > "$work/unbegun.record"
    compared 7 "started and never entered: core" "$work/unbegun.record"
    for fault in runs-on end-unseen; do
        planted kvm "$fault" "$copy" && built_turns "$copy" || fail "turns: $fault"
        if "$work/turns" 1 3000 "$work/run.record" 2> "$work/err" || ! grep -q "a call was refused: 19" "$work/err"
        then fail "turns: $fault is not seen"; else pass; fi
    done
    planted kvm begin-lost "$copy" && built_turns "$copy" && "$work/turns" 1 3000 "$work/run.record" ||
        fail "turns: begin-lost"
    compared 6 "in no run: it has not begun" "$work/run.record"
}

# each fault still fits the monitor's sources, and the list says who tells it. What any monitor links is as small as the
# page says
kvm_faults() {
    local name teller
    has_python "faults of hosts/kvm" || return
    while IFS='|' read -r name teller _; do
        if planted kvm "$name" "$work/kvm" && [ -n "$teller" ]; then pass; else fail "hosts/kvm/faults.edits: $name"; fi
    done < <(hosts/plant --told hosts/kvm/faults.edits)
    if [ "$(cat hosts/kvm/{cold,cores,vcpu,record}.c hosts/kvm/vmm.h | wc -l)" -le 620 ] &&
        [ "$(cat hosts/kvm/kvmtool/{psci.c,kvmtool.patch} | wc -l)" = 260 ]
    then pass; else fail "the lines of hosts/kvm"; fi
}

# has_cargo: whether there is what the crate for Rust wants, which is skipped if not
has_cargo() {
    local have
    have=$(cargo --version 2> /dev/null | cut -d ' ' -f 2)
    [ "$(printf '%s\n' 1.78 "$have" | sort -V | head -n 1)" = 1.78 ] || { skip "the crate for Rust" "cargo of 1.78"; false; }
}

# vcpu_enters FOLDER WORD..: what the example of the crate in this folder prints, with these words of `env`
vcpu_enters() {
    env "${@:2}" CARGO_TARGET_DIR="$work/rust" timeout "$patience" \
        cargo run -q --offline --manifest-path "$1/Cargo.toml" --example vcpu > "$work/out" 2>&1 || fail "$1: the example vcpu"
    printf '%s\n' "core 0 enters at 0x40000000 with 0x0" "core 1 enters at 0x40001000 with 0x7" > "$work/lines"
    answers "the example vcpu in $1"
}

# the crate for Rust: bindings beside the headers, stored scripts, and guests that move
rust_crate() {
    has_cargo && has_cc "the crate for Rust" || return
    if PSCI_LIB=$(realpath "$(dirname "$archive")") CARGO_TARGET_DIR=$work/rust timeout "$patience" \
        cargo test -q --offline --manifest-path hosts/rust/Cargo.toml > "$work/out" 2>&1 &&
        [ "$(grep -c "^test result: ok. [1-9]" "$work/out")" = 3 ]
    then pass; else fail "cargo test in hosts/rust"; tail -n 20 "$work/out"; fi
    vcpu_enters hosts/rust PSCI_LIB="$(realpath "$(dirname "$archive")")"
}

# guest_of WORD..: what hosts/kvm/run ends with. A guest that is to move has
guest_of() {
    say "KVM: $*"
    hosts/kvm/run "$@" > "$work/out" 2>&1 && ! grep "moved 0 times" "$work/out"
}

# lists_agree PROFILE OPTION.. -- LIST..: these lists, played, are judged, and their ports are compared
lists_agree() {
    local list profile=$payload/profiles/$1 options=()
    shift
    while [ "$1" != -- ]; do options+=("$1"); shift; done
    shift
    rm -rf "$work/lists"
    guest_of --seconds "$patience" "${options[@]}" --lists "$work/lists" "$@" ||
        fail "hosts/kvm/run ${options[*]} --lists: $(tail -n 1 "$work/out")"
    judged_as 0 "$# record$([ $# = 1 ] || echo s): $# agrees" --profile "$profile" "$work"/lists/*.record
    for list in "$@"; do
        compared 0 "are answered as by the proved program" "$work/lists/$(basename "$list" .list).port"
    done
}

# linux_agrees WORD..: a record of Linux, which does this, is compared
linux_agrees() {
    guest_of --seconds "$patience" --record "$work/linux.record" "$@" ||
        fail "hosts/kvm/run $*: $(tail -n 1 "$work/out")"
    ! grep "did not" "$work/out" || fail "hosts/kvm/run $*: Linux did not what it was to do"
    compared 0 "are answered as by the proved program" "$work/linux.record"
}

# lists and Linux by kvmtool, which has the library in it
kvm_kvmtool() {
    can_boot && [ -e "$cache/trixie/packages/bin/busybox" ] || { skip "guests of kvmtool" "$cache/trixie"; return; }
    [ -e "$cache/kvmtool/source/Makefile" ] || { skip "guests of kvmtool" "source of it"; return; }
    lists_agree ours-on-kvmtool --kvmtool -- lives off on-race standby system-suspend tests/program/lists/stale.list
    linux_agrees --kvmtool each
}

# lists and Linux, which go on in another monitor in mid-run: a core is off, it has been started and has not begun, the
# system is suspended, or all are on
kvm_moves() {
    can_boot && [ -e "$cache/trixie/packages/bin/busybox" ] || { skip "guests of KVM that move" "$cache/trixie"; return; }
    lists_agree ours-on-kvm --move-after 40 -- storm-1
    lists_agree ours-on-kvm --move-call 0xc4000003 -- off tests/program/lists/stale.list
    lists_agree ours-on-kvm --move-call 0x84000000 -- tests/program/lists/moves.list
    linux_agrees --move-at "guest: up" --move-call 0xc400000e each idle suspend-5
    linux_agrees --move-call 0x84000002 each
}

# lists that are judged, whose ports are compared; Linux; and one of the planted faults, another with each commit
kvm_live() {
    local faults fault took words=(each idle suspend-5) begun=$SECONDS
    local lists=(affinity down-01 lives mode off on-race on-twice refusals standby storm-1 storm-down-1 system-suspend
        tests/program/lists/*.list)
    can_boot && [ -e "$cache/trixie/packages/bin/busybox" ] || { skip "guests of KVM" "$cache/trixie"; return; }
    lists_agree ours-on-kvm -- "${lists[@]}"
    fresh_guest
    guest_of --seconds "$patience" --cores 2 --kernel "$work/fresh" || fail "hosts/kvm/run --kernel fresh"
    if [ "$(grep "^fresh: " "$work/out")" = "fresh: over" ]; then pass; else
        fail "a core or a life of hosts/kvm is not new: $(grep "^fresh: " "$work/out")"
    fi
    if [ -e "$cache/trixie/kexec/fetched" ]; then words+=(kexec each); else
        skip "kexec of a guest of KVM" "$cache/trixie/kexec"
    fi
    linux_agrees "${words[@]}"
    # a fault may hang, and gets more time than all of this took without one
    took=$((SECONDS - begun))
    mapfile -t faults < <(hosts/plant --told hosts/kvm/faults.edits | grep -v "|turns|")
    IFS='|' read -ra fault <<< "${faults[$(git rev-list --count HEAD 2> /dev/null || echo 0) % ${#faults[@]}]}"
    kvm_fault "${fault[@]}"
}

# fresh_guest: $work/fresh gets a guest that looks whether its cores and lives are new
fresh_guest() {
    aarch64-linux-gnu-gcc -O1 -std=gnu11 -Wall -Wextra -Werror -ffreestanding -nostdlib -static -fno-pic -mgeneral-regs-only \
        -mstrict-align -fno-stack-protector -Wl,-Ttext=0x40200000,-e,0x40200000,--build-id=none,--no-warn-rwx-segments \
        -o "$work/fresh.elf" tests/hosts/programs/fresh.c > "$work/err" 2>&1 &&
        aarch64-linux-gnu-objcopy -O binary "$work/fresh.elf" "$work/fresh" || fail "tests/hosts/programs/fresh.c"
}

# kvm_fault NAME TELLER PLAYED TEXT: what the teller says, where this fault is planted
kvm_fault() {
    local port played
    read -ra played <<< "$3"
    rm -rf "$work/faulty"
    case $2 in
        Linux) ;;
        guest) played=(--cores 2 --kernel "$work/fresh") ;;
        *) played=(--lists "$work/faulty" "${played[@]}") ;;
    esac
    guest_of --seconds $((40 + took)) --fault "$1" "${played[@]}" || true
    case $2 in
        compare) for port in "$work"/faulty/*.port; do ./psci compare --quick "$port"; done ;;
        judge) ./psci compare --limit "$patience" --profile "$payload/profiles/ours-on-kvm" "$work"/faulty/*.record ;;
        *) cat "$work/out" ;;
    esac > "$work/told" 2>&1
    if grep -q -- "$4" "$work/told"; then pass; else
        fail "hosts/kvm/run --fault $1 .. $3: $2 does not say '$4'"
        tail -n 5 "$work/told"
    fi
}
