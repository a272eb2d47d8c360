#define _GNU_SOURCE
#include "lives.h"

#include <errno.h>
#include <fcntl.h>
#include <glob.h>
#include <inttypes.h>
#include <malloc.h>
#include <signal.h>
#include <stdio.h>
#include <stdlib.h>
#include <string.h>
#include <sys/resource.h>
#include <sys/stat.h>
#include <sys/syscall.h>
#include <sys/wait.h>
#include <unistd.h>

#include "archive.h"
#include "digests.h"
#include "exchange.h"
#include "records.h"

char path[512], octets[LIVES_ROOM], lines[LIVES_ROOM], handed[LIVES_ROOM], said[LIVES_ROOM], done[LIVES_ROOM];
size_t size;
int failed, killed_at;

const char head[] = "journal 2 sign rules 1 description bench\nstart - 1795543676 1\nclock 1795543676 1\n";
const char older_head[] = "journal 1 sign rules 1 description bench\nstart - 1795543676 1\nclock 1795543676 1\n";
const char state_text[] = "state 1 sign\nsilent 5\npowered 1\nend\n";

void check(const char *what, int is_so)
{
    if (!is_so) {
        printf("%s\n--- lines:\n%.600s\n--- handed:\n%.600s\n--- said:\n%.600s\n--- done:\n%.60s\n", what, lines, handed,
               said, done);
        failed = 1;
    }
}

int is_in(const char *what, const char *text) { return strstr(text, what) != NULL; }

const char *with(const char *first, const char *more)
{
    static char made[4096];
    snprintf(made, sizeof made, "%s%s", first, more);
    return made;
}

/* ---- files */

size_t read_file(const char *name, char *to)
{
    FILE *file = fopen(name, "rb");
    size_t found = file != NULL ? fread(to, 1, LIVES_ROOM - 1, file) : 0;
    if (file != NULL) {
        fclose(file);
    }
    to[found] = '\0';
    return found;
}

void write_file(const char *name, const char *from, size_t length)
{
    FILE *file = fopen(name, "wb");
    if (file == NULL || fwrite(from, 1, length, file) != length || fclose(file) != 0) {
        perror(name);
        exit(1);
    }
}

const char *beside(const char *end)
{
    static char name[600];
    snprintf(name, sizeof name, "%s%s", path, end);
    return name;
}

size_t found_beside(const char *end, char *to)
{
    glob_t found;
    size_t count = 0;
    to[0] = '\0';
    if (glob(beside(end), 0, NULL, &found) == 0) {
        size_t at = 0;
        for (count = 0; count < found.gl_pathc; count++) {
            struct stat told;
            check("a file beside is its owner's alone",
                  stat(found.gl_pathv[count], &told) == 0 && (told.st_mode & 0777) == 0600);
            at += read_file(found.gl_pathv[count], to + at);
        }
    }
    globfree(&found);
    return count;
}

void clear(void)
{
    static const char *const ends[] = {"", ".*", ".kept/*"};
    for (size_t at = 0; at < sizeof ends / sizeof *ends; at++) {
        glob_t found;
        if (glob(beside(ends[at]), 0, NULL, &found) == 0) {
            for (size_t one = 0; one < found.gl_pathc; one++) {
                unlink(found.gl_pathv[one]);
            }
        }
        globfree(&found);
    }
}

void read_lines(void)
{
    uint64_t count = 0;
    size_t to = 0;
    size = read_file(path, octets);
    check("all records are whole", records_whole(octets, size, &count) == size);
    for (size_t at = 0, end; at < size && (end = line_end(octets, size, at)) > at; at = end) {
        size_t length = record_line(octets, at, end);
        memcpy(lines + to, octets + at, length);
        lines[to + length] = '\n';
        to += length + 1;
    }
    lines[to] = '\0';
}

void make(const char *from)
{
    uint64_t number = 0;
    size = 0;
    for (const char *at = from, *end; *at != '\0'; at = end + 1) {
        end = strchr(at, '\n');
        number++;
        size += record_made(octets + size, at, (size_t)(end - at), number, number);
    }
    write_file(path, octets, size);
}

void make_older(const char *from)
{
    uint32_t sum = 0;
    size = 0;
    for (const char *at = from, *end; *at != '\0'; at = end + 1) {
        end = strchr(at, '\n');
        int written = sprintf(octets + size, "%.*s #", (int)(end - at), at);
        sum = crc32_after(sum, octets + size, (size_t)written);
        int tail = sprintf(octets + size + written, "%08x\n", (unsigned)sum);
        sum = crc32_after(sum, octets + size + written, (size_t)tail);
        size += (size_t)(written + tail);
    }
    write_file(path, octets, size);
}

/* ---- what a life does to the disk */

static int noted = -1; /* where a life notes it */
static int is_elsewhere; /* no file has a second name */

/* A life is killed before the call that is asked for. */
static void note(char call)
{
    static int calls;
    if (noted >= 0) {
        if (++calls == killed_at) {
            _exit(KILLED);
        }
        dprintf(noted, "%c", call);
    }
}

/* These stand in place of the C library's. */
int fsync(int file)
{
    note('s');
    return (int)syscall(SYS_fsync, file);
}

int fdatasync(int file)
{
    note('d');
    return (int)syscall(SYS_fdatasync, file);
}

int ftruncate(int file, off_t length)
{
    note('c');
    return (int)syscall(SYS_ftruncate, file, length);
}

int link(const char *from, const char *to)
{
    note('l');
    errno = EXDEV;
    return is_elsewhere ? -1 : linkat(AT_FDCWD, from, AT_FDCWD, to, 0);
}

int rename(const char *from, const char *to)
{
    note('r');
    return renameat(AT_FDCWD, from, AT_FDCWD, to);
}

/* ---- lives */

static struct power power;

static void hand(void *to, const struct line *line)
{
    static const char *const words[] = {"?", "?", "?", "d", "t", "h", "l", "b"};
    int has_seconds = line->kind == LINE_TICKS || line->kind == LINE_POWER_BACK;
    if (has_seconds) {
        dprintf(*(int *)to, "%s%" PRIu64 " ", words[line->kind], line->seconds);
    } else {
        dprintf(*(int *)to, "%s ", words[line->kind]);
    }
}

/* A state is told by its octets and by how many values of objects stand behind it. */
static size_t begin(void *to, const struct state *state)
{
    if (state->text != NULL) {
        dprintf(*(int *)to, "s%zu,%zu ", state->size, state->sets.count);
        return memmem(state->text, state->size, "bad", 3) != NULL ? 2 : 0;
    }
    return 0;
}

static void limit(rlim_t most)
{
    struct rlimit asked = {most, RLIM_INFINITY};
    setrlimit(RLIMIT_FSIZE, &asked);
}

/* Shortens the journal: what a manager set goes with it. */
static void shorten(struct journal *journal, int to)
{
    static const char set[] = "1.3.6.1.5 INTEGER 7", kept[] = ".kept";
    char archive[sizeof path + sizeof kept];
    snprintf(archive, sizeof archive, "%s%s", path, kept);
    int error = journal_paid(journal);
    if (error == 0) {
        sets_put(&journal->sets, set, strlen(set));
        error = journal_exchange(journal, state_text, strlen(state_text), &power, archive_is(archive) ? archive : NULL);
    }
    dprintf(to, error == 0 ? "= " : "! ");
}

static void step(struct journal *journal, char what, int to, double *up)
{
    if (what == 'k') {
        int is_kept = journal_keep(journal, "datagram 3000\n", 14);
        dprintf(to, is_kept ? "+ " : "- ");
        if (is_kept) {
            journal_heard(journal, 1, 0);
        }
    } else if (what == 't' || what == 'm') {
        uint64_t seconds = what == 't' ? 1 : 60;
        *up += (double)seconds;
        journal_tick(journal, seconds, *up);
    } else if (what == 'h') {
        journal_heard(journal, 0, 0);
    } else if (what == 's') {
        shorten(journal, to);
    } else if (what == 'o') {
        power = (struct power){1, moment_at(*up)};
        (void)journal_keep(journal, "power-lost\n", 11);
    } else if (what == 'e') {
        is_elsewhere = 1;
    } else if (what == 'f' || what == 'l') {
        limit((rlim_t)journal->size - (what == 'l'));
    } else if (what == 'r' || what == 'z') {
        limit(what == 'z' ? 0 : RLIM_INFINITY);
    } else if (what == 'x') {
        _exit(0);
    } else if (what == 'p') {
        size_t before = mallinfo2().uordblks;
        for (int times = 0; times < 5000; times++) {
            step(journal, 't', to, up);
            step(journal, 'h', to, up);
        }
        dprintf(to, "%s", mallinfo2().uordblks > before ? "grown " : "");
    }
}

/* A life in a process of its own. */
static void live(struct journal_asked asked, const char *steps, int to, int faults, int calls)
{
    static struct journal journal;
    double up = running();
    noted = calls;
    dup2(faults, STDERR_FILENO);
    signal(SIGXFSZ, SIG_IGN);
    if (*steps == 'f' || *steps == 'F') {
        struct stat found;
        limit(*steps == 'f' && stat(path, &found) == 0 ? (rlim_t)found.st_size : 0);
    }
    asked.path = path;
    asked.digest = "bench";
    journal_open(&journal, asked, up, (struct handing){begin, hand, &to}, &power);
    dprintf(to, "%s", power.is_off ? "off " : "");
    for (const char *what = steps + (*steps == 'f' || *steps == 'F'); *what != '\0'; what++) {
        step(&journal, *what, to, &up);
    }
    int is_kept = journal_end(&journal, up);
    _exit(is_kept ? 0 : UNRECORDED);
}

/* All that a pipe gives up to its end. */
static void drain(int from, char *to)
{
    ssize_t count;
    while ((count = read(from, to, 4096)) > 0) {
        to += count;
    }
    *to = '\0';
    close(from);
}

int lived(struct journal_asked asked, const char *steps)
{
    int told[2], faults[2], calls[2], status = 0;
    if (pipe(told) != 0 || pipe(faults) != 0 || pipe(calls) != 0) {
        perror("pipe");
        exit(1);
    }
    fflush(stdout);
    pid_t child = fork();
    if (child == 0) {
        live(asked, steps, told[1], faults[1], calls[1]);
    }
    close(told[1]);
    close(faults[1]);
    close(calls[1]);
    waitpid(child, &status, 0);
    drain(told[0], handed);
    drain(faults[0], said);
    drain(calls[0], done);
    return WIFEXITED(status) ? WEXITSTATUS(status) : -1;
}

int lives(const char *steps) { return lived((struct journal_asked){0}, steps); }
