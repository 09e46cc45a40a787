# Long scripts through the built program, sourced by ./test after tests/program/program.sh: many lines, events and
# cores, and more messages than memory holds. What is wanted is written here, by docs/port/FORMATS.md.

blank_lines() { awk -v count="$1" 'BEGIN { for (i = 0; i < count; i++) print "" }'; }

# a script too long to keep: a million lines end well, and one more is a fault, whatever stands in it
long_scripts() {
    : > "$work/lines"
    { echo "$board"; blank_lines 999999; } > "$work/script"
    run replay < "$work/script"
    expect "a million lines" 0
    answers "a million lines"
    printf 'x%.0s' {1..257} >> "$work/script"
    run replay < "$work/script"
    expect "a million lines and one" 3 "line 1000001: script fault 4"
    answers "a million lines and one"
}

# 100,000 events: the core of the board and one that it lacks take turns
many_events() {
    awk -v board="$board" 'BEGIN {
        print board
        print "enter 0"
        for (event = 2; event <= 100000; event++) print "call " event % 2 " 0x84000000"
    }' > "$work/script"
    awk 'BEGIN {
        print "1 enter 0x0 0x0"
        for (event = 2; event <= 100000; event++) print event, event % 2 ? "absent" : "return 65537"
    }' > "$work/lines"
    run replay < "$work/script"
    expect "100,000 events" 0
    answers "100,000 events"
}

# the most cores that a board may have: each but the first is asked on, is pending, is asked on again,
# may not call, is started, enters, is on, and calls
many_cores() {
    local tree
    for tree in "(16 16 16 16 16 16 16 16 16 16 16 16 16 16 16 16)" \
        "((16 16 16 16) (16 16 16 16) (16 16 16 16) (16 16 16 16))"; do
        awk -v tree="$tree" 'function word(core,   cluster, clusters) {
                cluster = int(core / 16)
                clusters = tree ~ /^\(\(/ ? 4 : 16
                return sprintf("0x%x", int(cluster / clusters) * 65536 + cluster % clusters * 256 + core % 16)
            }
            BEGIN {
                print "board " tree " exec 0x0-0x4 boot 0x0 starts 1 lives 1"
                print "enter 0"
                for (core = 1; core < 256; core++) {
                    print "call 0 0xc4000003 " word(core) " 0 " core
                    print "call 0 0xc4000004 " word(core) " 0"
                    print "call 0 0xc4000003 " word(core) " 0 " core
                    print "call " core " 0x84000000"
                    print "deliver " core - 1
                    print "enter " core
                    print "call 0 0xc4000004 " word(core) " 0"
                    print "call " core " 0x84000000"
                }
                print "enter 256"
                print "call 0 0xc4000003 0x10 0 0"
            }' > "$work/script"
        awk 'BEGIN {
            print ++event, "enter 0x0 0x0"
            for (core = 1; core < 256; core++) {
                print ++event, "return 0 #" core - 1, "start", core, "life 1 number 0"
                print ++event, "return 2"
                print ++event, "return -5"
                print ++event, "ignored"
                print ++event, "ack #" core - 1 " applied 1"
                print ++event, sprintf("enter 0x0 0x%x", core)
                print ++event, "return 0"
                print ++event, "return 65537"
            }
            print ++event, "absent"
            print ++event, "return -2"
        }' > "$work/lines"
        run replay < "$work/script"
        expect "256 cores, $tree" 0
        answers "256 cores, $tree"
    done
}

# turns CORES TURNS: the last core of a board is asked on, enters, goes off, and is asked on again,
# each message delivered and the last acknowledgement of each turn taken
turns() {
    awk -v cores="$1" -v turns="$2" 'BEGIN {
        print "board " cores " exec 0x0-0x4 boot 0x0 starts 4294967295 lives 1"
        print "enter 0"
        core = cores - 1
        for (turn = 0; turn < turns; turn++) {
            print "call 0 0xc4000003 " core " 0 7"
            print "deliver " 2 * turn
            print "enter " core
            print "call " core " 0x84000002"
            print "deliver " 2 * turn + 1
            print "take " 2 * turn + 1
        }
    }'
}

# turned CORES TURNS: the answers to that
turned() {
    awk -v cores="$1" -v turns="$2" 'BEGIN {
        print ++event, "enter 0x0 0x0"
        core = cores - 1
        for (turn = 0; turn < turns; turn++) {
            print ++event, "return 0 #" 2 * turn " start " core " life 1 number " turn
            print ++event, "ack #" 2 * turn " applied 1"
            print ++event, "enter 0x0 0x7"
            print ++event, "stop #" 2 * turn + 1 " down " core " life 1 number " turn + 1 \
                " parts 0:3:" turn + 1
            print ++event, "ack #" 2 * turn + 1 " applied 1"
            print ++event, "used"
        }
    }'
}

# 120,000 events by which a core is asked on and goes off
many_turns() {
    turns 16 20000 > "$work/script"
    turned 16 20000 > "$work/lines"
    run replay < "$work/script"
    expect "20,000 turns" 0
    answers "20,000 turns"
}

# A replay keeps what was sent. Where memory for more is refused, the lines of all events before stand.
memory_of_messages() {
    local status=0
    turns 2 150000 > "$work/script"
    turned 2 150000 > "$work/lines"
    in_room 24576 "$program" replay < "$work/script" > "$work/out" 2> "$work/err" || status=$?
    echo "$status" > "$work/got"
    expect "150,000 turns in 24 MiB" 5 "out of memory"
    # whole lines, some and not all, and the right ones
    if [ -s "$work/out" ] && [ "$(tail -c 1 "$work/out" | od -An -tx1)" = " 0a" ] &&
        ! cmp -s "$work/lines" "$work/out" &&
        head -n "$(wc -l < "$work/out")" "$work/lines" | cmp -s - "$work/out"; then pass; else
        fail "what was answered before memory ran out"
    fi
}

# In ample memory a replay sends as many messages as its script asks for: 200,000.
many_messages() {
    turns 2 100000 > "$work/script"
    turned 2 100000 > "$work/lines"
    run replay < "$work/script"
    expect "200,000 messages" 0
    answers "200,000 messages"
}
