#include "sign_lines.h"

#include "wisangub.h"

static void hand_datagram(struct wisangub_sign *sign, const struct line *line)
{
    static uint8_t octets[WISANGUB_DATAGRAM], reply[WISANGUB_DATAGRAM];
    size_t size = line_octets(line, octets, sizeof octets), sent = 0;
    wisangub_sign_receive(sign, octets, size, reply, sizeof reply, &sent);
}

void hand_line(void *to, const struct line *line)
{
    struct wisangub_sign *sign = to;
    if (line->kind == LINE_DATAGRAM) {
        hand_datagram(sign, line);
    } else if (line->kind == LINE_HEARD) {
        wisangub_sign_heard(sign);
    } else if (line->kind == LINE_POWER_LOST) {
        wisangub_sign_power_lost(sign);
    } else if (line->kind == LINE_POWER_BACK) {
        wisangub_sign_power_back(sign, (uint32_t)line->seconds);
    } else if (line->kind == LINE_TICKS) {
        for (uint64_t second = 0; second < line->seconds; second++) {
            wisangub_sign_tick(sign);
        }
    }
}
