/* Runs an Image until it turns its system off:
 *     vmm [-b BOARD] [-r RECORD] [-l] [-m FILE [-n CALLS [-c WORD]] [-t TEXT]] [-f FILE] IMAGE TREE [INITRD]
 * With -l each letter of its console is an exit. With -m the guest leaves into FILE: after so many calls, of this word
 * alone, or once its console has said TEXT. With -f it comes from FILE. */
#include "move.h"

#include <errno.h>
#include <inttypes.h>
#include <signal.h>
#include <stdio.h>
#include <stdlib.h>
#include <sys/ioctl.h>
#include <unistd.h>

static const char *board = "(2 2) exec 0x40000000-0x50000000 boot 0x40200000 starts 4294967295 lives 65535";
static const char *image, *tree, *initrd, *record = "/dev/null", *from;
static bool has_ring = true;
static pthread_barrier_t all;
static bool is_empty; /* no thread of a core is left */

void call_back(struct core *core) {
    __atomic_store_n(&core->run->immediate_exit, 1, __ATOMIC_SEQ_CST);
    pthread_kill(core->thread, SIGUSR1);
    pthread_cond_signal(&core->bell);
}

/* As at a cold boot, with all cores out of the guest. */
static void begin_life(void) {
    for (struct core *core = cores; core < cores + many_cores; core++) {
        reset_core(core);
        core->run->immediate_exit = 0;
    }
    reset_machine(image, tree, initrd);
    life = GOES_ON;
}

static bool next_life(const struct core *core) {
    pthread_barrier_wait(&all);
    if (life >= IS_OFF) {
        __atomic_store_n(&is_empty, true, __ATOMIC_SEQ_CST);
        return false;
    }
    if (core == cores)
        begin_life();
    pthread_barrier_wait(&all);
    return true;
}

/* Where the life ends meanwhile, the guest leaves in the next one. */
static void leave_if_due(void) {
    if (!is_due())
        return;
    pthread_mutex_lock(&lock);
    if (life == GOES_ON) {
        life = LEAVES;
        for (struct core *core = cores; core < cores + many_cores; core++)
            call_back(core);
    }
    pthread_mutex_unlock(&lock);
}

/* One stay in the guest, or in a sleep that an interrupt ends: KVM waits for it, and says so. */
static void run_once(struct core *core) {
    struct kvm_run *run = core->run;
    if (ioctl(core->vcpu, KVM_RUN, 0) < 0) {
        if (errno != EINTR && errno != EAGAIN)
            fail("KVM_RUN");
        return;
    }
    if (departure.into && run->exit_reason == KVM_EXIT_HYPERCALL)
        count_call(get_x(core, 0));
    if (take_exit(core)) {
        leave_if_due();
    } else if (run->exit_reason == KVM_EXIT_MMIO) {
        access_memory(run);
    } else {
        fprintf(stderr, "vmm: core 0x%" PRIx64 ": exit %u\n", core->mpidr, run->exit_reason);
        exit(1);
    }
}

/* A core that is off, or in a stop that no interrupt ends, waits for its bell. */
static void *play(void *argument) {
    struct core *core = argument;
    struct psci_answer answer;
    for (;;) {
        pthread_mutex_lock(&lock);
        bool leaves = life != GOES_ON, enters = core->is_open && !leaves;
        bool waits = !leaves && !enters && !core->executes && !core->how.wakes;
        if (waits)
            pthread_cond_wait(&core->bell, &lock);
        if (enters)
            enter(core, &answer);
        pthread_mutex_unlock(&lock);
        if (leaves && !next_life(core))
            return 0;
        if (enters)
            begin(core, &answer, MEMORY + TREE);
        else if (!leaves && !waits)
            run_once(core);
    }
}

static void nothing(int signal) { (void)signal; }

static void start_cores(void) {
    pthread_barrier_init(&all, 0, many_cores);
    pthread_mutex_lock(&lock);
    for (struct core *core = cores; core < cores + many_cores; core++)
        if (pthread_create(&core->thread, 0, play, core))
            fail("a thread");
    pthread_mutex_unlock(&lock);
}

static bool read_options(int many, char **words) {
    for (int letter; (letter = getopt(many, words, "b:r:lm:n:c:t:f:")) != -1;)
        switch (letter) {
        case 'b': board = optarg; break;
        case 'r': record = optarg; break;
        case 'l': has_ring = false; break;
        case 'm': departure.into = optarg; break;
        case 'n': departure.calls = strtoul(optarg, 0, 0); break;
        case 'c': departure.word = strtoul(optarg, 0, 0); break;
        case 't': departure.text = optarg; break;
        case 'f': from = optarg; break;
        default: return false;
        }
    if (many - optind < 2)
        return false;
    image = words[optind];
    tree = words[optind + 1];
    initrd = words[optind + 2];
    return true;
}

int main(int many, char **words) {
    struct sigaction action = {.sa_handler = nothing};
    if (!read_options(many, words))
        return 2;
    sigaction(SIGUSR1, &action, 0);
    if (from) {
        pass_guest(from, false, board, has_ring);
    } else {
        open_library(board);
        open_machine(has_ring);
        begin_life();
    }
    record_into(record, from ? 0 : board);
    start_cores();
    while (!__atomic_load_n(&is_empty, __ATOMIC_SEQ_CST)) {
        usleep(50000);
        access_memory(0);
        leave_if_due();
    }
    for (struct core *core = cores; core < cores + many_cores; core++)
        pthread_join(core->thread, 0);
    access_memory(0);
    end_record();
    if (life == LEAVES)
        pass_guest(departure.into, true, board, has_ring);
    return was_refused();
}
