/* Events as the text of a session, which runs to the same events. */
#ifndef TEXT_H
#define TEXT_H

#include "bytes.h"

/* What the text of a recorded session starts with. */
#define RECORDED_START "# Recorded by troughiron serve.\n"

void text_of_events(struct bytes *text, const uint8_t *events, size_t count);

#endif
