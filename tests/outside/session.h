/* Sessions: random lists of calls on one live bracket, refused ones among them. */
#ifndef SESSION_H
#define SESSION_H

#include "compare.h"
#include "held.h"

/* The memory of the session itself; one that differs from it where nothing is in use; one whose frames are re-exposed. */
enum { OWN, TWIN, EXPOSED_TWIN, MEMORIES };

struct session {
    int calls;              /* in the list */
    bool alone;             /* the library alone is asked, on several memories */
    bool re_exposed;        /* the tolerance is 0, and the third memory is kept */
    size_t area;            /* pixels of a frame, whatever its shape */
    uint8_t *rasters, *exposed; /* the frames that come and go, one after another; the same re-exposed */
    struct {
        int32_t numbers[HELD_NUMBERS];
        uint8_t *newest;
    } memory[MEMORIES];
    struct numbers settings; /* of the last accepted start */
    bool sound;              /* it has started, and nothing was damaged since */
    uint32_t held, frames[MAX_FRAMES]; /* how many frames are held, and which */
    uint32_t next;           /* the frame to add */
    struct held handed;
};

void begin_session(struct session *session, bool alone);
void end_session(struct session *session);

/* Makes the next call as a trial, and tells which. */
const struct call *make_step(struct session *session, bool first, struct trial *trial);

/* Takes over what the call answered and left. */
void take_step(struct session *session, const struct call *call, const struct trial *trial, uint32_t answer);

/* Asks the library alone: as long as the session is sound, all memories have to be answered alike, and what is told has to be what
 * the library's mtb_series tells of the frames held. */
struct comparison compare_alone(struct session *session, const struct call *call, const struct trial *trial);

#endif
