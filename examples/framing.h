/* Frames cut out of the bytes that a line brings. The library is given one whole frame a call; where a frame begins and ends is said here.
 *
 * A text has a character that opens it and one that closes it. The opening character begins a frame whatever stood before it, and what
 * stands before it is passed over: noise costs that noise and not the frame after it, NUL and LF between frames cost nothing, and frames
 * that come in one burst are all found.
 *
 * An RTU frame has neither character, and its data may be any bytes: silence alone ends it. A search for frames inside a burst would
 * carry out data that looks like a request, so noise that touches an RTU frame costs that frame, as the standard has it. */
#ifndef FRAMING_H
#define FRAMING_H

#include <stddef.h>
#include <stdint.h>

enum {
    RTU_LONGEST = 256,
    ASCII_LONGEST = 513,
    MEWTOCOL_LONGEST = 2048, /* of the expanded form; the library refuses an ordinary frame of more than 118 */
    LONGEST_FRAME = MEWTOCOL_LONGEST
};

typedef struct {
    const char *openings; /* each opens a frame; NULL where only silence parts frames */
    int closing;          /* closes it; -1 where only silence does */
    size_t longest;       /* bytes that a frame has at most */
} Form;

extern const Form rtu_form;
extern const Form ascii_form;
extern const Form mewtocol_form;

typedef struct {
    const Form *form;
    size_t count;         /* bytes of the frame so far */
    int closed;           /* whether it is whole: the next byte begins another */
    uint8_t bytes[LONGEST_FRAME + 1];
    size_t passed_over;   /* bytes that belonged to no frame; the caller may set it back */
} Framing;

void framing_start(Framing *f, const Form *form);

/* Takes one byte. 1 when it closes a frame: `bytes` and `count` hold it until the next byte. */
int framing_byte(Framing *f, uint8_t byte);

/* Takes silence of a gap. 1 when that ends a frame, as in RTU; a text that it cuts off is passed over. */
int framing_silence(Framing *f);

/* How long silence lasts that parts frames, in microseconds.
 *
 * RTU: Modbus over Serial Line V1.02, 2.5.1.1, has three and a half characters of eleven bits, and 1.75 ms above 19,200 baud. Its limit
 * of one and a half characters inside a frame is not watched: a program sees bytes later than the line has them, and in heaps.
 * Texts: the same standard, 2.5.2.1, lets characters of a frame be a second apart; MEWTOCOL-COM says nothing, and is given the same. */
int64_t framing_gap(const Form *form, long baud);

#endif
