/* What starts a controller anew that is stuck: the machine's watchdog, and systemd's. */
#ifndef WATCHDOGS_H
#define WATCHDOGS_H

/* Opens a watchdog such as /dev/watchdog, which counts from then on; null is none. Ends where it cannot be opened. */
int watchdog_open(const char *path);

/* One more second is well: feeds both. Where systemd does not take it at once it is left out, and the lamps go on. */
void watchdogs_feed(int watchdog);

/* The controller ends in good order, and nothing is to start it anew. */
void watchdogs_end(int watchdog);

/* Tells systemd a state, such as READY=1, where it started us with Type=notify. */
void systemd_tell(const char *state);

#endif
