/*
 * A journal over many lives: journal_test FOLDER, an empty one. Files that are whole, torn, damaged or of form 1, disks
 * that refuse, and lines that no sign knows; each life is a process of its own. It prints `ok`, or what does not hold.
 */
#define _GNU_SOURCE
#include <fcntl.h>
#include <stdint.h>
#include <stdio.h>
#include <stdlib.h>
#include <string.h>
#include <sys/stat.h>
#include <unistd.h>

#include "lives.h"
#include "say.h"

/* What is recorded is handed over by the next life, in its order. */
static void whole(void)
{
    clear();
    check("a new journal", lives("ttkhtkthth") == 0 && is_in("+ + ", handed));
    check("a sync for its start, each datagram and its end", is_in("dddd", done));
    read_lines();
    check("its lines", is_in("\nticks 2\ndatagram 3000\nticks 1\ndatagram 3000\n", lines));
    check("and those after them", is_in("\nticks 1\nheard\nticks 1\nheard\nclock ", lines));
    check("another life", lives("tx") == 0 && is_in("t2 d t1 d t1 h t1 h ", handed) && said[0] == '\0');
    check("and another", lives("m") == 0 && is_in("t2 d t1 d t1 h t1 h ", handed));
    read_lines();
    check("no file beside", found_beside(".*", handed) == 0);
}

/* A front of a record is put aside, and the journal goes on. */
static void torn(void)
{
    clear();
    make(with(head, "ticks 4\ndatagram 3001\n"));
    size_t kept = size;
    write_file(path, octets, size - 5);
    check("a torn end", lives("k") == 0 && is_in("t4 ", handed) && !is_in("d ", handed));
    check("is on the disk with its folder before it is cut", strcmp(done, "sscsssddd") == 0);
    check("is told", is_in("cut away, and kept as", said));
    check("is put aside", found_beside(".cut-*", handed) == 1 && strncmp(handed, "datagram 3001 #5 5 ", 19) == 0);
    read_lines();
    check("and others follow", is_in("\nticks 4\nstart ", lines) && is_in("\ndatagram 3000\n", lines) && size > kept);
    make(with(head, "start - 1795543700 1\n"));
    check("a start without a clock", lives("k") == 0 && is_in("cut away, and kept as", said));
    read_lines();
    check("is put aside too", !is_in("1795543700", lines) && found_beside(".cut-*", handed) == 2);
}

/* What is damaged is refused by its octet, and stays as it is, until that is accepted. */
static void damaged(void)
{
    for (int is_last = 0; is_last < 2; is_last++) {
        clear();
        make(with(head, "ticks 4\ndatagram 3001\nticks 7\n"));
        char octet[32], *at = strstr(octets, is_last ? "ticks 7" : "datagram");
        size_t place = (size_t)(at - octets), length = size;
        snprintf(octet, sizeof octet, "octet %zu,", place);
        octets[place + 2] ^= 4;
        write_file(path, octets, size);
        check("damage", lives("k") == 2 && is_in(octet, said) && is_in("--accept-damage", said) && handed[0] == '\0');
        check("stays", read_file(path, lines) == length && memcmp(lines, octets, length) == 0);
        memcpy(lines, octets + place, length - place);
        lines[length - place] = '\0';
        check("accepted", lived((struct journal_asked){.accepts_damage = 1}, "k") == 0 && is_in("t4 ", handed));
        check("is put aside", found_beside(".cut-*", handed) == 1 && strcmp(handed, lines) == 0);
        check("it goes on", lives("k") == 0 && is_in("t4 ", handed) && is_in("d ", handed));
    }
}

/* A damaged first record; a file of something else. */
static void strangers(void)
{
    clear();
    make(head);
    octets[9] ^= 1;
    write_file(path, octets, size);
    check("a damaged first record", lives("k") == 2 && is_in("octet 0,", said));
    check("accepted", lived((struct journal_asked){.accepts_damage = 1}, "k") == 0 && is_in("+ ", handed));
    static const char *const others[][2] = {
        {"hello world\nhello\n", " is no journal"},
        {"journal 2 centre rules 1 description bench\n", "its end is centre"},
        {"journal 3 sign rules 1 description bench\n", "its form is 3"},
        {"journal 2 sign rules 2 description bench\n", "its rules is 2"},
        {"journal 2 sign rules 1 description other\n", "another description"},
    };
    for (size_t at = 0; at < sizeof others / sizeof *others; at++) {
        clear();
        make(others[at][0]);
        check(others[at][1], lives("k") == 2 && is_in(others[at][1], said));
    }
    write_file(path, "hello\n# more\n", 13);
    check("no journal", lived((struct journal_asked){.accepts_damage = 1}, "k") == 2 && is_in("is no journal", said));
}

/* Whole records whose lines no sign knows are refused by name. */
static void unknown(void)
{
    static const char *const wrong[] = {
        "hello world",  "ticks 12x",   "ticks 4294967296", "ticks ",         "power-back -1", "power-back 99999999999",
        "datagram 300", "datagram 3g", "start x 1",        "journal 2 sign", "tick 1",        "heard ",
        "clock 1000000000000000000 1", "clock 1 -1000000000000000000", "start b 1000000000000000000 1",
        "clock 1",      "clock -1 1",  "state 1 sign",     "powered 1",      "end",           "set 1.3.6.1.5 INTEGER 7",
    };
    for (size_t at = 0; at < sizeof wrong / sizeof *wrong; at++) {
        char line[64];
        snprintf(line, sizeof line, "ticks 3\n%s\nticks 4\n", wrong[at]);
        clear();
        make(with(head, line));
        check(wrong[at], lived((struct journal_asked){.accepts_damage = 1}, "k") == 2 && is_in(wrong[at], said)
                             && is_in("record 5, at octet", said) && handed[0] == '\0');
    }
    clear();
    make(with(head, "ticks 4294967295\ntick\ndatagram -\ndatagram 30AF\nheard\npower-lost\npower-back 0\n"
                    "clock 999999999999999999 -999999999999999999\nclock 1795543677 -5\n"));
    check("known lines", lives("k") == 0 && is_in("t4294967295 t1 d d h l b0 ", handed));
    clear();
    make(with(head, "start \x7f 1 1\n"));
    check("a boot that nobody can read", lives("k") == 2 && is_in("no sign knows its line: start ? 1 1", said));
    for (int more = 0; more < 2; more++) {
        char line[3000] = "datagram ";
        memset(line + 9, '3', (size_t)(2 * (1472 + more)));
        strcat(line, "\n");
        clear();
        make(with(head, line));
        check("the longest datagram", lives("k") == (more ? 2 : 0));
        check("is read or told", more ? is_in("no sign knows", said) : is_in("d ", handed));
    }
}

/* A journal of form 1 is written anew, and kept under another name. */
static void older(void)
{
    clear();
    write_file(beside(".form1"), "a file", 6);
    (void)chmod(beside(".form1"), 0600);
    make_older(with(older_head, "ticks 4\ndatagram 3001\n"));
    memcpy(lines, octets, size + 1);
    lines[size] = '\0';
    write_file(beside(".new"), "a part", 6);
    check("a journal of form 1", lives("k") == 0 && is_in("t4 d ", handed) && is_in(".form1-2", said));
    check("is on the disk, and the old one is kept, before it has its name", strcmp(done, "sllsrsssddd") == 0);
    check("is kept", found_beside(".form1*", handed) == 2 && is_in("a file", handed) && is_in(lines, handed));
    read_lines();
    check("is written anew", is_in(with(older_head + 10, "ticks 4\ndatagram 3001\nstart"), lines));
    check("its first line", strncmp(lines, "journal 2 ", 10) == 0);
    check("goes on", lives("k") == 0 && is_in("t4 d ", handed) && said[0] == '\0');
    clear();
    make_older(with(older_head, "ticks 4\n"));
    (void)!link(path, beside(".form1"));
    check("killed before the renaming", lives("k") == 0 && is_in("t4 ", handed));
    check("one old file", found_beside(".form1*", handed) == 1);
}

/* Of form 1: a torn end is put aside with the old file; what has a record's shape behind a hole is damage. */
static void older_ends(void)
{
    for (int is_shaped = 0; is_shaped < 5; is_shaped++) {
        clear();
        make_older(with(older_head, "ticks 4\ndatagram 3001\nticks 5\n"));
        char *at = strstr(octets, "datagram");
        if (is_shaped == 0) {
            size = (size_t)(at - octets) + 8;
        } else if (is_shaped == 1) {
            at[3] = '\0';
        } else if (is_shaped == 2) {
            octets[size - 1] ^= 2;
        } else if (is_shaped == 3) {
            octets[size - 14] ^= 1;
        } else {
            octets[size - 1] = '\0';
        }
        write_file(path, octets, size);
        check("form 1, its end", lives("k") == (is_shaped == 0 ? 0 : 2));
        check("is told", is_shaped == 0 ? is_in(".form1", said) : is_in("--accept-damage", said));
        check("accepted", lived((struct journal_asked){.accepts_damage = 1}, "k") == 0 && is_in("t4 ", handed));
        check("the old file stays", found_beside(".form1*", handed) == 1 && memcmp(handed, octets, size) == 0);
    }
}

/* A disk that is full: nothing is kept, nothing is lost while the process lives, and nothing grows. */
static void full(void)
{
    clear();
    check("a new journal on a full disk", lives("fkthtk") == UNRECORDED && is_in("- - ", handed));
    check("is told", is_in("File too large: what is not recorded", said) && is_in("2 seconds are not recorded", said));
    check("room later", lives("fkthtkrkt") == 0 && is_in("- - + ", handed) && is_in("written again", said));
    read_lines();
    check("all is there", is_in("\nticks 1\nheard\nticks 1\ndatagram 3000\nticks 1\nclock ", lines));
    check("in the middle", lives("tkftkthk") == UNRECORDED && is_in("+ - - ", handed));
    read_lines();
    check("what is lost is told", is_in(" seconds are not recorded, and will be lost at the next start", said));
    check("each minute", lives("fmmm") == UNRECORDED && is_in("60 seconds", said) && is_in("180 seconds", said));
    check("needed", lived((struct journal_asked){.is_needed = 1}, "ft") == 1 && is_in("it is needed", said));
    check("at a start alone", lived((struct journal_asked){.is_needed = 1}, "kfktrk") == 0 && is_in("+ - + ", handed));
    size_t before = size;
    int status = lives("kftpkrk");
    check("polled for long, in the memory that it has", !is_in("grown ", handed));
    check("polled for long", status == 0 && is_in("+ - + ", handed));
    read_lines();
    check("nothing grows", size < before + 10000);
    uint64_t seconds = 0;
    for (const char *at = strstr(lines, "\nticks "); at != NULL; at = strstr(at + 1, "\nticks ")) {
        seconds += strtoull(at + 7, NULL, 10);
    }
    check("no second is lost", seconds >= 5001 && seconds < 5100);
}

/* A torn end on a full disk waits until it can be put aside. */
static void full_and_torn(void)
{
    clear();
    make(with(head, "ticks 4\ndatagram 3001\n"));
    write_file(path, octets, size - 5);
    check("torn on a full disk", lives("Fk") == UNRECORDED && is_in("t4 ", handed) && is_in("- ", handed));
    check("it stays", read_file(path, lines) == size - 5);
    check("until there is room", lives("k") == 0 && found_beside(".cut-*", handed) == 1);
}

/* Where no boot has an id, less time since it is another boot. */
static void boots(void)
{
    static const struct {
        struct moment last, now;
        int is_same;
    } rows[] = {
        {{"one", 7, 9}, {"one", 8, 10}, 1}, {{"one", 7, 9}, {"one", 8, 3}, 1}, {{"one", 7, 9}, {"two", 8, 10}, 0},
        {{"-", 7, 9}, {"-", 8, 9}, 1},      {{"-", 7, 9}, {"-", 8, 8}, 0},     {{"-", 7, 9}, {"one", 8, 10}, 0},
    };
    for (size_t at = 0; at < sizeof rows / sizeof *rows; at++) {
        check("the same boot", is_same_boot(&rows[at].last, &rows[at].now) == rows[at].is_same);
    }
}

/* What the time without a process was. */
static void downs(void)
{
    static const struct {
        const char *more;
        enum down down;
        const char *wanted;
    } rows[] = {
        {"clock 9999999999 1\n", DOWN_POWER, "l b4294967295 "},
        {"clock 5 1\n", DOWN_POWER, "l b4294967295 "},
        {"clock 1577836799 1\n", DOWN_POWER, "l b4294967295 "},
        {"clock 9999999999 999999999\n", DOWN_BY_BOOT, "l b4294967295 "},
        {"clock 9999999999 999999999\n", DOWN_PROCESS, "t86400 "},
        {"power-lost\nticks 9\nclock 1795543690 1\n", DOWN_PROCESS, "off "},
    };
    for (size_t at = 0; at < sizeof rows / sizeof *rows; at++) {
        clear();
        make(with(head, rows[at].more));
        int status = lived((struct journal_asked){.down = rows[at].down}, "k");
        check(rows[at].more, status == 0 && is_in(rows[at].wanted, handed));
    }
    clear();
    make(with(head, "power-lost\nticks 100\nclock 1795543776 1\n"));
    check("a loss that lasted", lived((struct journal_asked){.down = DOWN_POWER}, "k") == 0);
    read_lines();
    const char *back = strstr(lines, "power-back "), *begun = strstr(lines, "power-lost\npower-back");
    int64_t wall = moment_at(running()).wall, since = back != NULL ? strtoll(back + 11, NULL, 10) : 0;
    check("counts from its beginning",
          begun != NULL && (wall - 1795543676 < 0 ? since == UINT32_MAX : llabs(wall - 1795543676 - since) < 60));
}

/* Standard error that nobody reads: what is said is left out, counted, and told of once there is room. */
static void unread(void)
{
    static char filling[4096], found[1 << 18];
    int ends[2], own = dup(STDERR_FILENO);
    if (pipe2(ends, O_NONBLOCK) != 0 || dup2(ends[1], STDERR_FILENO) < 0) {
        check("a pipe", 0);
        return;
    }
    while (write(ends[1], filling, sizeof filling) > 0) {
    }
    fcntl(ends[1], F_SETFL, 0);
    say("one\n");
    say("%s %d\n", "two", 2);
    while (read(ends[0], found, sizeof found) == (ssize_t)sizeof found) {
    }
    say("three\n");
    say("four\n");
    ssize_t size = read(ends[0], found, sizeof found - 1);
    dup2(own, STDERR_FILENO);
    found[size > 0 ? size : 0] = '\0';
    static const char wanted[] = "2 lines were left out here: nobody took what was said\nthree\nfour\n";
    check("what nobody read", strcmp(found, wanted) == 0);
}

int main(int count, char **words)
{
    if (count != 2) {
        fputs("usage: journal_test FOLDER\n", stderr);
        return 2;
    }
    snprintf(path, sizeof path, "%s/journal", words[1]);
    whole();
    torn();
    damaged();
    strangers();
    unknown();
    older();
    older_ends();
    full();
    full_and_torn();
    boots();
    downs();
    unread();
    if (!failed) {
        puts("ok");
    }
    return failed;
}
