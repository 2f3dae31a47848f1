/*
 * A migration driver to start from: it moves a guest that goes on working, replays what it sent at a destination and compares.
 *
 *   gcc -std=c11 -Iinclude examples/driver.c target/staticlib/libchirpsteeple.a -o driver && ./driver
 *
 * On another processor than x86-64, .ci/x86-64 gcc .. and .ci/x86-64 ./driver.
 *
 * The driver is driver.h, which again.c has too. The exit status is 0 if the token was granted and the destination has the guest's memory.
 */
#include "driver.h"

int main(void)
{
    static struct driver driver;
    guest_boots(&driver.guest, STREAMS);
    must_be_done(chirp_start(BENCH(&driver.guest)), "start");
    return migrate(&driver) ? 0 : 1;
}
