/* The port with its power controller on a core of its own (entry.c, link.c, power.c, scp.c) as processes for spin: two
 * cores, the control processor with its timer, the lock, rings, doors, bells, interrupts of the normal world. The firmware
 * and the power controller are what psci.h says of these, cut down to starts. What one alone reads and writes, by its lock
 * or by nature, goes with its next step that others see (atomic).
 *   -DMOST=n     a core is started so often at most      -DCALLS=n  a core makes so many calls in a start
 *   -DLOSE       a frame may be lost
 * Faults: -DNO_WAIT a Down does not wait; -DSTANDS_EARLY a core says that it stands before it gives the lock back;
 * -DLATE_LOCK it takes the lock once more behind that; -DDOOR_FIRST a door is opened before its start is there;
 * -DBELL_LOST a bell is answered once more before WFI; -DNO_TIMER nothing is sent again; -DOLD_ACK an acknowledgement
 * of an earlier start is believed. */
#ifndef MOST
#define MOST 2
#endif
#ifndef CALLS
#define CALLS 2
#endif
#define N 2
#define SCP 2
/* what the firmware says of a core, which is going until its Down is acknowledged */
mtype = { on, going, off, pending };
mtype = { none, down, start };             /* what is outstanding for it */

/* the doors, and by which start a core has entered */
byte opened[N], first[N], stopped[N], woken[N], used[N];
bit taken, bell[3], executes[N], is_armed;
chan msgs = [2] of { mtype, byte, byte };  /* kind, core, number */
chan acks = [2] of { mtype, byte, byte };
/* the firmware, under the lock; the power controller */
mtype status[N] = off, out[N] = none;
byte known[N], starts[N], waits[N];

/* A ring that is full drops what comes. */
inline put(ring, kind, who, number) {
    if
#ifdef LOSE
    :: skip
#endif
    :: nfull(ring) -> ring!kind, who, number
    :: full(ring) -> skip
    fi
}

#ifdef OLD_ACK
#define BELIEVED (out[c] == k)
#else
#define BELIEVED (out[c] == k && n == known[c])
#endif

/* what is not looked at again makes no states */
inline forget() { k = 0; c = 0; n = 0 }

inline lock() { !taken -> taken = 1 }
inline unlock() { taken = 0 }

inline take_acks() {
    do
    :: acks?k, c, n ->
        if
        :: BELIEVED ->
            out[c] = none;
            if
            :: k == down && status[c] == going -> assert(!executes[c]); status[c] = off
            :: else
            fi
        :: else
        fi
    :: empty(acks) -> forget(); break
    od
}

inline ring_control() { bell[SCP] = 1 }

/* A core --------------------------------------------------------------------------------------- */

proctype core(byte me) {
    mtype k;
    byte c, n, mine, calls;
    bit wakes;
    goto comes;
world:
end_world:
    do
    :: bell[me] -> bell[me] = 0; atomic { lock(); take_acks(); unlock() }
    :: atomic { calls < CALLS && !taken -> /* CPU_ON of the other one */
        calls++; lock(); take_acks();
        if
        :: status[1 - me] == off -> status[1 - me] = pending; out[1 - me] = start
        :: else -> unlock(); goto world
        fi };
        atomic { put(msgs, start, 1 - me, known[1 - me]) };
        atomic { ring_control(); unlock() }
    :: atomic { calls < CALLS && me != 0 && !taken -> lock(); take_acks(); status[me] = going; out[me] = down; break }
    :: atomic { calls < CALLS && starts[me] < MOST && !taken -> lock(); take_acks(); out[me] = down; wakes = 1; break }
    od;
    atomic { put(msgs, down, me, known[me]) };
#ifdef STANDS_EARLY
    ring_control();
    atomic { stopped[me] = used[me]; bell[SCP] = 1 };
    unlock();
#else
    atomic { ring_control(); unlock() };
#endif
    atomic { executes[me] = 0; stopped[me] = used[me]; calls = 0 };
    ring_control();
    do
    :: bell[me] = 0;
        if
        :: opened[me] != used[me] -> break
        :: else
        fi;
        if
        :: wakes && woken[me] != used[me] -> woken[me] = used[me]; ring_control()
        :: skip /* an interrupt may come later */
        fi;
#ifdef BELL_LOST
        bell[me] = 0;
#endif
#ifdef LATE_LOCK
        atomic { lock(); executes[me] = 1; take_acks() };
        atomic { unlock(); executes[me] = 0 };
#endif
end_wait:
        bell[me] || (wakes && woken[me] != used[me])
    od;
comes:
end_door:
    atomic { opened[me] != used[me] -> used[me] = opened[me]; mine = first[me]; executes[me] = 1; wakes = 0 };
    atomic { lock(); take_acks();
        assert(mine > known[me]); /* else psci_enter refuses */
        known[me] = mine; status[me] = on; out[me] = none; mine = 0; unlock() };
    goto world
}

/* The control processor ------------------------------------------------------------------------ */

/* Its last step is the bell. */
inline open_door(who) {
#ifdef DOOR_FIRST
    atomic { starts[who]++; opened[who] = starts[who] };
    first[who] = starts[who];
#else
    atomic { starts[who]++; first[who] = starts[who]; opened[who] = starts[who] };
#endif
    bell[who] = 1
}

/* A core that executes is rung. One that comes to stand then looks at its door once more. */
inline ring_one() {
    if
    :: atomic { stopped[0] != opened[0] -> bell[0] = 1 }
    :: atomic { stopped[0] == opened[0] ->
        if
        :: stopped[1] != opened[1] -> bell[1] = 1
        :: else
        fi }
    fi
}

#define STARTS (k == start && n == starts[c] && starts[c] < MOST)

#define MAY_GO(who) (waits[who] && (stopped[who] == opened[who] || waits[who] != starts[who]))
inline goes(who) {
    n = waits[who];
    waits[who] = 0;
    assert(!(n == starts[who] && executes[who]));
    put(acks, down, who, n);
    n = 0
}

/* by what is heard the core is started, and its door has another start */
#define IS_WOKEN(who) (opened[who] && stopped[who] == opened[who] && woken[who] == opened[who])

/* what is outstanding goes out once more, as long as there is any */
inline keep_time() {
    is_armed = 0;
    c = 0;
    do
    :: c < N ->
        if
        :: out[c] != none -> is_armed = 1; put(msgs, out[c], c, known[c])
        :: else
        fi;
        c++
    :: else -> break
    od;
    c = 0
}

proctype control() {
    mtype k;
    byte c, n;
    goto begins;
end_control:
    do
    :: atomic { bell[SCP] ->
        bell[SCP] = 0;
#ifndef NO_TIMER
        is_armed = 1
#endif
        }
    :: atomic { is_armed && empty(msgs) && !taken -> keep_time() }
    :: atomic { nempty(msgs) ->
        msgs?k, c, n;
        if
#ifndef NO_WAIT
        :: k == down && stopped[c] != opened[c] && n == starts[c] -> waits[c] = n; forget(); goto end_control
#endif
        :: else -> assert(!(k == down && n == starts[c] && executes[c])); put(acks, k, c, n)
        fi }
        ring_one();
        if
        :: STARTS -> open_door(c); forget()
        :: else -> forget()
        fi
    :: atomic { MAY_GO(0) -> goes(0) }
        ring_one()
    :: atomic { MAY_GO(1) -> goes(1) }
        ring_one()
    :: IS_WOKEN(0) -> assert(starts[0] < MOST); open_door(0)
    :: IS_WOKEN(1) -> assert(starts[1] < MOST); open_door(1)
    od;
begins:
    open_door(0);
    goto end_control
}

/* Where nothing goes on, nothing is left to do. */
proctype rest() {
end_rest:
    timeout -> assert(!taken && out[0] == none && out[1] == none && opened[0] == used[0] && opened[1] == used[1])
}

init { atomic { run control(); run core(0); run core(1); run rest() } }
