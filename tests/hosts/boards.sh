# The boards of the port at EL3 (hosts/el3/boards), sourced by ./test after tests/hosts/el3.sh: what is stored of each is that of
# its file, each is built, Linux and the payload on each.

places=(sbsa-ref zcu102 raspi3b raspi3ap versal)
# by a QEMU that Debian 12 does not have
newer=(raspi4b ast2700)

# what stands where, the lines of each folder, and the table of the page; each board's firmware is compiled
el3_boards() {
    local name fresh=$work/el3-boards
    has_python "boards of hosts/el3" || return
    if hosts/el3/boards.py check > "$work/out" 2>&1; then pass; else fail "hosts/el3/boards.py check"; cat "$work/out"; fi
    hosts/el3/boards.py rows > "$work/out"
    sed -n '/^| Board | UART/,/^$/p' hosts/el3/README.md | sed '$d' > "$work/lines"
    answers "the table of boards in hosts/el3/README.md"
    cp -r hosts/el3 "$fresh"
    told_of_board "boards/zcu102/place.h is not that of its board" zcu102 's/^stacks 0xffff4000/stacks 0xffff1000/'
    told_of_board "more than 200" raspi3b '$r hosts/el3/README.md'
    told_of_board "is half in a range" sbsa-ref 's/^range 0x20000000/range 0x20000800/'
    command -v aarch64-linux-gnu-gcc > /dev/null || { skip "compiling boards of hosts/el3" aarch64-linux-gnu-gcc; return; }
    for name in virt "${places[@]}" "${newer[@]}"; do
        if board_compiles "$name" > "$work/out" 2>&1; then pass; else fail "hosts/el3/boards/$name"; cat "$work/out"; fi
    done
    if board_compiles sbsa-ref 1 > "$work/out" 2>&1; then pass; else fail "one core of sbsa-ref"; cat "$work/out"; fi
    if board_compiles sbsa-ref "((8 8 8 8) (8 8 8 8))" > "$work/out" 2>&1; then pass; else fail "64 cores of sbsa-ref"; cat "$work/out"; fi
    sed -i 's/^#define STACKS_END .*/#define STACKS_END (STACKS + 4 * STACK)/' "$fresh/boards/virt/place.h"
    make -s -C "$fresh" TOP="$PWD" OUT="$work/stacks" TABLE=machines/four.h GIC=2 clean objects > "$work/out" 2>&1
    if grep -q "there are not so many stacks" "$work/out"; then pass; else fail "stacks run into what is above them"; fi
}

# told_of_board TEXT NAME EDIT: what hosts/el3/boards.py says of a board that is changed
told_of_board() {
    sed -i "$3" "$fresh/boards/$2/board"
    if "$fresh/boards.py" check > "$work/out" 2>&1; then fail "hosts/el3/boards.py lets this through: $3"
    elif grep -qF -- "$1" "$work/out"; then pass; else fail "hosts/el3/boards.py does not say '$1'"; fi
    cp "hosts/el3/boards/$2/board" "$fresh/boards/$2/board"
}

# the text of a board that QEMU has as it stands in its file
text_of_board() {
    local file=hosts/el3/boards/$1/board
    echo "${2:-$(sed -n 's/^cores //p' "$file")} exec $(sed -n 's/^enter //p' "$file") boot $(sed -n 's/^linux //p' "$file")" \
        "starts 4294967295 lives 65535"
}

# board_compiles NAME [CORES]
board_compiles() {
    local gic=none file=hosts/el3/boards/$1/board
    ! grep -q '^gicv3 ' "$file" || gic=3
    ! grep -q '^gicv2 ' "$file" || gic=2
    hosts/el3/machine text "$(text_of_board "$1" "${2-}")" "$1" > "$work/text" &&
        hosts/el3/machine table "$work/text" "$1" > "$work/table.h" && rm -rf "$work/objects" &&
        make -s -C hosts/el3 TOP="$PWD" OUT="$work/objects" BOARD="$1" TABLE="$work/table.h" GIC=$gic FLAGS=-DRECORD objects
}

# each board: Linux with hotplug of each core, idle and suspend to memory, three lives, a reset that nobody has ordered,
# lists of the payload, and faults
el3_live_sbsa_ref() { on_board sbsa-ref; }
el3_live_zcu102() { on_board zcu102; }
el3_live_raspi3b() { on_board raspi3b; }
el3_live_raspi3ap() { on_board raspi3ap; }
el3_live_raspi4b() { by_newer_qemu on_board raspi4b; }
el3_live_ast2700() { by_newer_qemu on_board ast2700; }
# of its cores QEMU starts one, and it resets none
el3_live_versal() {
    local took
    can_boot || return
    live versal --board versal idle suspend-5
}
el3_live_newer() { by_newer_qemu newer_processors; }
newer_processors() {
    local took name
    can_boot || return
    for name in neoverse-v1 neoverse-n2; do live "$name" --cpu "$name" --gic 3 each vectors; done
}

# by_newer_qemu COMMAND..: by that of Debian 13, where its root is here: version 10 has processors and boards more
by_newer_qemu() {
    local root=$cache/debian/user-trixie
    [ -x "$root/usr/bin/qemu-system-aarch64" ] || { skip "boards of QEMU 10" "$root/usr/bin/qemu-system-aarch64"; return; }
    qemu_of "$root" > "$work/qemu"
    chmod +x "$work/qemu"
    QEMU=$work/qemu "$@"
}

# a program of another root with its own libraries
qemu_of() {
    echo '#!/bin/sh'
    echo "QEMU_MODULE_DIR=$1/usr/lib/x86_64-linux-gnu/qemu exec $1/lib64/ld-linux-x86-64.so.2" \
        "--library-path $1/usr/lib/x86_64-linux-gnu $1/usr/bin/qemu-system-aarch64 -L $1/usr/share/qemu \"\$@\""
}

on_board() {
    local took
    can_boot || return
    [[ $1 != raspi3* ]] || [ -e "$cache/trees/boot" ] || { skip "the board $1" "$cache/trees/boot"; return; }
    live "$1" --board "$1" each boot-core idle suspend-5
    live "$1-lives" --board "$1" --lives 3 each reboot
    live "$1-cut" --board "$1" --reset-at "guest: core 2 off" each
    [ "$1" != sbsa-ref ] || cores_of_sbsa
    lists_on_board "$1"
    lists_on_board "$1" tests/program/lists/{beats,pending,second-life}.list
    board_faults "$1"
}

# 16 and 64 cores, which one processor emulates in turn: side by side they starve each other. Of 64 the second model takes
# minutes
cores_of_sbsa() {
    live sbsa-sixteen --single --board sbsa-ref --cores "((4 4) (4 4))" each boot-core idle
    quick=--quick live sbsa-sixty-four --single --board sbsa-ref --cores "((8 8 8 8) (8 8 8 8))" range-1-3 boot-core idle
}

# the faults of a board's own, of which Linux tells in one life or the next, or a list
board_faults() {
    local name check machine text
    while IFS='|' read -r name check machine text; do
        [ "$check $machine" != "board-lists $1" ] || listed_fault "$1" "$name" "$text"
        [ "$check $machine" = "board $1" ] || continue
        say "Linux at EL3: the board $1, the fault $name"
        EL3_OUT=$work/el3-fault hosts/el3/run --board "$1" --seconds $((30 + 2 * took)) --lives 2 --fault "$name" each reboot > "$work/out" 2>&1
        if grep -q -- "$text" "$work/out"; then pass; else
            fail "hosts/el3/run --board $1 --fault $name does not say '$text'"
            tail -n 5 "$work/out"
        fi
    done < <(hosts/plant --told hosts/el3/faults.edits)
}

# played_on BOARD OPTIONS [LIST..]: lists of the payload there
played_on() {
    rm -rf "$work/lists"
    make -s -C hosts/payload "OUT=$work/payload" || return
    sed "s/^board .*/board $(text_of_board "$1" 4)/" hosts/payload/profiles/el3 > "$work/profile"
    EL3_OUT=$work/el3-lists hosts/payload/run --payload "$work/payload/payload.bin" --seconds "$patience" --out "$work/lists" \
        --command "hosts/el3/run --seconds $patience --board $1 $2 --cores 4 --mode none --kernel IMAGE" "${@:3}"
}

# listed_fault BOARD NAME TEXT: a fault of which the lists tell that look beside the answers
listed_fault() {
    say "Lists at EL3: the board $1, the fault $2"
    played_on "$1" "--fault $2" tests/program/lists/beats.list tests/program/lists/pending.list > "$work/out" 2>&1
    compared 6 "$3" "$work/lists/beats.record" --limit "$patience" --profile "$work/profile" "$work/lists/pending.record"
}

# lists_on_board NAME [LIST..]: what the payload is answered there, which is to be as the judge has it
lists_on_board() {
    local name=$1
    shift
    say "Lists at EL3: the board $name"
    if played_on "$name" "" "$@" > "$work/out" 2>&1; then pass; else
        fail "hosts/payload/run --command 'hosts/el3/run --board $name ..'"
        tail -n 5 "$work/out"
    fi
    if ./psci compare --limit "$patience" --profile "$work/profile" "$work"/lists/*.record > "$work/out" 2>&1; then pass; else
        fail "./psci compare of the lists on the board $name"
        grep -v '^agrees' "$work/out" | head -n 10
    fi
}
