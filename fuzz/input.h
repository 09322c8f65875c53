/*
 * The layout of an input of the fuzzer, one byte each unless said otherwise. What is missing
 * at its end is 0.
 */
#ifndef INPUT_H
#define INPUT_H

enum layout {
    KIND,                 /* which call */
    SHAPE,                /* how the call is made from numbers and bytes */
    STANDS,               /* where lent memory stands */
    SALT,                 /* what it holds, and its alignment */
    ROOMS,                /* two numbers of 2 bytes: how long the buffers are */
    JOINED = ROOMS + 4,    /* how many lists, of a call on several */
    SPOILED,              /* what is then wrong with their lengths */
    SHARES,               /* a number of 8 bytes: what each of them has of the records */
    NUMBERS = SHARES + 8, /* six numbers of 8 bytes, big-endian */
    BYTES = NUMBERS + 48, /* list (also of a view, or several of them), volume or text */
};

/*
 * Numbers, lists and texts that the fuzzer makes are hardly ever sound: most shapes make
 * them so, or nearly so.
 */
enum shape {
    AS_IS,
    SOUND, /* no record is refused; numbers near their range; a text written, then spoiled */
    SMALL, /* and records lie close together */
    MANY,  /* and are repeated, each time at another position */
    SHAPES
};

#endif
