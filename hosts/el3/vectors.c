/* A program of the guest: fills the vector registers, sleeps, and looks whether they are kept. */
typedef unsigned long word;

static long call(long number, long a, long b, long c) {
    register long x8 __asm__("x8") = number, x0 __asm__("x0") = a, x1 __asm__("x1") = b, x2 __asm__("x2") = c;
    __asm__ volatile("svc #0" : "+r"(x0) : "r"(x8), "r"(x1), "r"(x2) : "memory");
    return x0;
}

enum { WRITE = 64, EXIT = 93, NANOSLEEP = 101 };
#define REGISTERS(each) each(0) each(1) each(7) each(8) each(15) each(16) each(23) each(31)
#define FILL(n) "dup v" #n ".2d, %1\n"
#define LOOK(n) "umov x9, v" #n ".d[1]\n cmp x9, %1\n cinc %0, %0, ne\n"

/* How many of them have changed over a sleep of a millisecond. */
static word changed(word pattern) {
    static long time[2] = {0, 1000000};
    word bad = 0;
    register long x8 __asm__("x8") = NANOSLEEP, x0 __asm__("x0") = (long)time, x1 __asm__("x1") = 0;
    __asm__ volatile(REGISTERS(FILL) "svc #0\n" REGISTERS(LOOK)
                     : "+r"(bad)
                     : "r"(pattern), "r"(x8), "r"(x0), "r"(x1)
                     : "x9", "cc", "memory");
    return bad;
}

void _start(void) {
    word bad = 0;
    for (word turn = 1; turn <= 200; turn++)
        bad += changed(turn * 0x0101010101010101) != 0;
    char good[] = "guest: vector registers are kept\n", lost[] = "guest: vector registers are LOST\n";
    call(WRITE, 1, (long)(bad ? lost : good), sizeof good - 1);
    call(EXIT, bad != 0, 0, 0);
}
