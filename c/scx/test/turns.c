/* Makes the emulator's turns short: it has the guest's old timer (8254) tick each 0.1 ms.
 *
 * Under -icount one thread of the emulator runs the processors by turns, and a turn is a part of the time until the next timer of any
 * kind. The timers of the processors are armed only when a processor has had its turn; this one the emulator arms by itself. The kernel
 * has no use for it, and takes its interrupt, each second tick, on processor 0. */
#include <stdio.h>
#include <sys/io.h>

enum { COUNTS_A_SECOND = 1193182, SQUARE_WAVE = 0x36, CONTROL = 0x43, CHANNEL_0 = 0x40 };

int main(void) {
    unsigned count = COUNTS_A_SECOND / 5000;
    if (iopl(3)) {
        perror("turns");
        return 1;
    }
    outb(SQUARE_WAVE, CONTROL);
    outb(count & 255, CHANNEL_0);
    outb((unsigned char)(count >> 8), CHANNEL_0);
    return 0;
}
