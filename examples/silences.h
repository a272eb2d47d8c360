/* How long a silence is on which a sign acts. */
#ifndef SILENCES_H
#define SILENCES_H

#include <stdint.h>

#include "datagrams.h"
#include "wisangub.h"

/* The seconds that dmsTimeCommLoss says; 0 where the sign acts on none. The sign is asked by a Get, which ends a silence:
 * it has to be over already. */
uint64_t silence_limit(struct wisangub_sign *sign, const struct communities *communities);

#endif
