/* Passes a call to the library, through the header. */
#ifndef PASS_H
#define PASS_H

#include "call.h"
#include "lent.h"

/* The call's answer, for the lent bytes and outputs; what was written is not yet copied. */
answer pass(const call *call, const lent *in, const lent out[2]);

#endif
