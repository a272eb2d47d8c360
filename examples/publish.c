#include "publish.h"

#include <stdint.h>
#include <stdio.h>
#include <string.h>

struct wisangub_status carry_out(struct wisangub_sign *sign, struct wisangub_centre *centre, const char *command,
                                 size_t size)
{
    uint8_t request[WISANGUB_DATAGRAM], reply[WISANGUB_DATAGRAM];
    struct wisangub_status status = {.busy = 0};
    enum wisangub_answer sends = wisangub_centre_command(centre, command, size, request, sizeof request, &size);
    while (wisangub_centre_status(centre, &status) == WISANGUB_DONE && status.busy) {
        while (sends == WISANGUB_DONE) {
            wisangub_sign_receive(sign, request, size, reply, sizeof reply, &size);
            sends = wisangub_centre_receive(centre, reply, size, request, sizeof request, &size);
        }
        wisangub_sign_tick(sign);
        sends = wisangub_centre_tick(centre, request, sizeof request, &size);
    }
    return status;
}

size_t publication(char *line, const char *text, size_t text_size, unsigned minutes)
{
    char *to = line + sprintf(line, "publish 3 1 %s", text_size == 0 ? "-" : "");
    for (size_t at = 0; at < text_size && at < 512; at++) {
        to += sprintf(to, "%02x", (unsigned)(unsigned char)text[at]);
    }
    to += sprintf(to, " - 0 0 200 %u 255 127.0.0.1", minutes);
    return (size_t)(to - line);
}
