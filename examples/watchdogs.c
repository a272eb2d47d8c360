#define _GNU_SOURCE
#include "watchdogs.h"

#include <fcntl.h>
#include <stddef.h>
#include <stdio.h>
#include <stdlib.h>
#include <string.h>
#include <sys/socket.h>
#include <sys/un.h>
#include <unistd.h>

int watchdog_open(const char *path)
{
    int file = path != NULL ? open(path, O_WRONLY | O_CLOEXEC) : -1;
    if (path != NULL && file < 0) {
        perror(path);
        exit(1);
    }
    return file;
}

/* Tells systemd a state, with flags of a message. */
static void tell(const char *state, int flags)
{
    const char *path = getenv("NOTIFY_SOCKET");
    struct sockaddr_un to = {.sun_family = AF_UNIX};
    size_t size = path != NULL ? strlen(path) : 0;
    if (size == 0 || size >= sizeof to.sun_path) {
        return;
    }
    memcpy(to.sun_path, path, size);
    if (*path == '@') {
        to.sun_path[0] = '\0';
    }
    int file = socket(AF_UNIX, SOCK_DGRAM | SOCK_CLOEXEC, 0);
    if (file >= 0) {
        socklen_t to_size = (socklen_t)(offsetof(struct sockaddr_un, sun_path) + size);
        (void)!sendto(file, state, strlen(state), MSG_NOSIGNAL | flags, (struct sockaddr *)&to, to_size);
        close(file);
    }
}

void systemd_tell(const char *state) { tell(state, 0); }

void watchdogs_feed(int watchdog)
{
    if (watchdog >= 0) {
        (void)!write(watchdog, "1", 1);
    }
    tell("WATCHDOG=1", MSG_DONTWAIT);
}

/* A watchdog that is not told `V` first goes on counting when it is closed. */
void watchdogs_end(int watchdog)
{
    tell("STOPPING=1", MSG_DONTWAIT);
    if (watchdog >= 0) {
        (void)!write(watchdog, "V", 1);
        close(watchdog);
    }
}
