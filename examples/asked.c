#define _GNU_SOURCE
#include "asked.h"

#include <errno.h>
#include <getopt.h>
#include <limits.h>
#include <stdio.h>
#include <stdlib.h>
#include <string.h>

#include "archive.h"
#include "files.h"
#include "shortening.h"
#include "wisangub.h"
#include "writes.h"

static void say_version(void)
{
    printf("signd %s\n", wisangub_version());
    exit(0);
}

static const char usage[] =
    "usage: signd [--port N] [--host ADDRESS] [--write-from ADDRESS ..] [--objects FILE] [--log FILE]\n"
    "    [--journal FILE [--keep SIZE] [--archive FOLDER] [--down power|process] [--accept-damage] [--need-journal]\n"
    "        [--most-recorded N]]\n"
    "    [--no-ticks] [--quiet] DESCRIPTION\n";

static void help(void)
{
    fputs(usage, stdout);
    puts("\n"
         "  --port N              its UDP port, else 1161; 0 is one that is free, which is printed\n"
         "  --host ADDRESS        an IPv4 or IPv6 address, or a name; else 127.0.0.1\n"
         "  --write-from ADDRESS  a SET of the writing community is heard from there alone; may stand again\n"
         "  --objects FILE        objects beside the sign's; read at a SIGHUP too\n"
         "  --log FILE            a line a datagram, with its time and its peer; - is standard output\n"
         "  --journal FILE        what changes the sign is kept here, over the end of the process\n"
         "  --keep SIZE           octets of a journal, as 500k; a longer one is shortened, and any at a SIGHUP; else 1M\n"
         "  --archive FOLDER      what is cut off a journal that is shortened is kept there\n"
         "  --down power|process  what the time without a process was\n"
         "  --accept-damage       goes on from what is whole of the journal, and puts the rest aside\n"
         "  --need-journal        ends where the disk takes nothing at a start\n"
         "  --most-recorded N     of the writing community, in a second; else 50\n"
         "  --no-ticks            no second passes for the sign\n"
         "  --quiet               neither where it is, what it accepts nor what managers set is printed\n"
         "  --version             the version of the library");
    exit(0);
}

static void misused(const char *why)
{
    fprintf(stderr, "signd: %s\n%s", why, usage);
    exit(2);
}

/* Refuses the word of an option in the words of wisangub-sign. */
static _Noreturn void refuse_word(const char *option, const char *word, const char *why)
{
    fprintf(stderr, "%s %s%s\n", option, word, why);
    exit(2);
}

/* A number, or -1. */
static long number(const char *word)
{
    char *rest;
    long found = strtol(word, &rest, 10);
    return *word >= '0' && *word <= '9' && *rest == '\0' ? found : -1;
}

/* What is told of the time without a process. */
static enum down down_of(const char *word)
{
    if (strcmp(word, "power") != 0 && strcmp(word, "process") != 0) {
        misused(word);
    }
    return strcmp(word, "power") == 0 ? DOWN_POWER : DOWN_PROCESS;
}

static void take(struct asked *asked, int option, const char *word)
{
    switch (option) {
    case 'h': asked->host = word; break;
    case 'p': asked->port = number(word); break;
    case 'w':
        if (!allowed_add(&asked->allowed, word)) {
            misused("--write-from is an IPv4 or IPv6 address, at most 64 times");
        }
        break;
    case 'o': asked->objects = word; break;
    case 'l': asked->log = word; break;
    case 'j': asked->journal.path = word; break;
    case 'd': asked->journal.down = down_of(word); break;
    case 'k': asked->keep = word; break;
    case 'c': asked->archive = word; break;
    case 'a': asked->journal.accepts_damage = 1; break;
    case 'r': asked->journal.is_needed = 1; break;
    case 'm': asked->most = number(word); break;
    case 'n': asked->has_ticks = 0; break;
    case 'q': asked->is_quiet = 1; break;
    case 'v': say_version(); break;
    case 'u': help(); break;
    default: misused("an option");
    }
}

static int is_named_beside(const char *path, const char *journal)
{
    char beside[PATH_MAX + sizeof NAME_BESIDE];
    snprintf(beside, sizeof beside, "%s" NAME_BESIDE, journal);
    return file_is_same(path, beside);
}

/* Whether a file stands beside a journal and takes its place, by its name or by that which it leads to; which is told
 * of a file that is not there yet too. */
static int is_beside(const char *path, const char *journal)
{
    char real[PATH_MAX] = "";
    int is_real = realpath(journal, real) != NULL || errno == ENOENT;
    return is_named_beside(path, journal) || (is_real && is_named_beside(path, real));
}

static _Noreturn void refuse_both(const char *path, const char *what, const char *other)
{
    fprintf(stderr, "%s cannot be the %s and the %s\n", path, what, other);
    exit(2);
}

/* A log's lines would damage each other file; what stands beside a journal is gone as it is shortened. */
static void look_at_files(const struct asked *asked)
{
    const char *log = asked->log, *journal = asked->journal.path;
    const struct {
        const char *path, *what;
    } files[] = {
        {journal, "journal"}, {asked->description, "description"}, {asked->objects, "file of objects"}, {log, "log"}};
    enum { FILES = sizeof files / sizeof *files };
    for (size_t at = 0; at < FILES - 1; at++) {
        if (log != NULL && files[at].path != NULL && file_is_same(log, files[at].path)) {
            refuse_both(log, "log", files[at].what);
        }
    }
    for (size_t at = 1; at < FILES; at++) {
        if (journal != NULL && files[at].path != NULL && is_beside(files[at].path, journal)) {
            refuse_both(files[at].path, files[at].what, "file beside the journal");
        }
    }
}

/* What is asked of a journal goes with one: a sign that needs it does not go on without. */
static void look_at_journal(const struct asked *asked)
{
    const struct {
        int is_asked;
        const char *option;
    } rows[] = {{asked->journal.accepts_damage, "--accept-damage"},
                {asked->journal.is_needed, "--need-journal"},
                {asked->journal.down != DOWN_BY_BOOT, "--down"},
                {asked->keep != NULL, "--keep"},
                {asked->archive != NULL, "--archive"}};
    for (size_t at = 0; asked->journal.path == NULL && at < sizeof rows / sizeof *rows; at++) {
        if (rows[at].is_asked) {
            refuse_word(rows[at].option, "is", " of a --journal FILE");
        }
    }
}

/* How a journal is shortened. */
static void look_at_shortening(struct asked *asked)
{
    asked->shortening.most = asked->keep != NULL ? octets_of(asked->keep) : KEEP_USUAL;
    asked->shortening.archive = asked->archive;
    if (asked->shortening.most == 0) {
        refuse_word("--keep", asked->keep, " is no size: a number of octets, perhaps with k or M behind it");
    }
    if (asked->archive != NULL && !archive_is(asked->archive)) {
        refuse_word("--archive", asked->archive, " is no folder");
    }
}

static const struct option options[] = {
    {"host", required_argument, NULL, 'h'},
    {"port", required_argument, NULL, 'p'},
    {"write-from", required_argument, NULL, 'w'},
    {"objects", required_argument, NULL, 'o'},
    {"log", required_argument, NULL, 'l'},
    {"journal", required_argument, NULL, 'j'},
    {"keep", required_argument, NULL, 'k'},
    {"archive", required_argument, NULL, 'c'},
    {"down", required_argument, NULL, 'd'},
    {"accept-damage", no_argument, NULL, 'a'},
    {"need-journal", no_argument, NULL, 'r'},
    {"most-recorded", required_argument, NULL, 'm'},
    {"no-ticks", no_argument, NULL, 'n'},
    {"quiet", no_argument, NULL, 'q'},
    {"version", no_argument, NULL, 'v'},
    {"help", no_argument, NULL, 'u'},
    {NULL, 0, NULL, 0},
};

struct asked asked_for(int count, char **words)
{
    struct asked asked = {.host = "127.0.0.1", .port = 1161, .most = WRITES_USUAL, .has_ticks = 1};
    int found;
    while ((found = getopt_long(count, words, "", options, NULL)) != -1) {
        take(&asked, found, optarg);
    }
    if (optind != count - 1) {
        misused("one description");
    }
    if (asked.most < 1 || asked.most > WRITES_MOST) {
        misused("--most-recorded is 1 to 1000000");
    }
    look_at_journal(&asked);
    look_at_shortening(&asked);
    asked.description = words[optind];
    look_at_files(&asked);
    return asked;
}
