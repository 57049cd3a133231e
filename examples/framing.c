#include "framing.h"

#include <string.h>

/* A `/` opens a laser head's text: on a line that carries both, it ends a MEWTOCOL text that was cut off.
 * No request or reply of MEWTOCOL has one. */
const Form rtu_form = {NULL, -1, RTU_LONGEST};
const Form ascii_form = {":", '\n', ASCII_LONGEST};
const Form mewtocol_form = {"%</", '\r', MEWTOCOL_LONGEST};

static int opens(const Form *form, uint8_t byte) { return byte != 0 && strchr(form->openings, byte) != NULL; }

static void drop(Framing *f) {
    f->passed_over += f->count;
    f->count = 0;
}

void framing_start(Framing *f, const Form *form) {
    f->form = form;
    f->count = 0;
    f->passed_over = 0;
    f->closed = 0;
}

int framing_byte(Framing *f, uint8_t byte) {
    const Form *form = f->form;
    if (f->closed) f->count = 0;
    f->closed = 0;
    if (form->openings) {
        if (opens(form, byte) || f->count == form->longest) drop(f);
        if (f->count == 0 && !opens(form, byte)) {
            f->passed_over++;
            return 0;
        }
    }
    /* One byte more than the longest frame is kept, so that the library sees a frame that is too long. */
    if (f->count <= form->longest) f->bytes[f->count++] = byte;
    f->closed = byte == form->closing;
    return f->closed;
}

int framing_silence(Framing *f) {
    if (f->form->openings && !f->closed) drop(f);
    if (f->closed || f->count == 0) return 0;
    f->closed = 1;
    return 1;
}

int64_t framing_gap(const Form *form, long baud) {
    if (form->openings) return 1000000;
    return baud > 19200 ? 1750 : 38500000 / baud;
}
