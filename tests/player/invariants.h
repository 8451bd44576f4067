/* What must hold of the image after every call that the player makes (invariants.c). */
#ifndef INVARIANTS_H
#define INVARIANTS_H

#include <stddef.h>
#include <stdint.h>

struct invariants {
    uint64_t calls, wrong;        /* calls checked; checks that failed */
    uint64_t discarded;           /* URBs that came back discarded */
    uint64_t out;                 /* slots out, by the image */
    uint64_t frame_bytes;         /* of the ring's frames, by the image */
    uint64_t transferred;         /* the image's counter of bytes transferred */
    void (*returned)(int is_discarded); /* what else is to be done when a URB came back, or NULL */
    void (*checked)(void);              /* what else is to be checked after a call, or NULL */
};

extern struct invariants invariants;

/* Counts a check that failed, and says so on standard error. */
void check_that(int holds, const char *what);

#endif
