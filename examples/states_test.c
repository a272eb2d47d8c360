/*
 * Journals that are shortened: states_test FOLDER STEP, an empty one. What stands in a journal behind a shortening, what
 * of a file that is cut or changed at each STEP-th octet is refused, disks that refuse in the middle, and what is kept
 * of the old files. It prints `ok`, or what does not hold.
 */
#define _GNU_SOURCE
#include <fcntl.h>
#include <inttypes.h>
#include <stdio.h>
#include <stdlib.h>
#include <string.h>
#include <sys/file.h>
#include <sys/stat.h>
#include <unistd.h>

#include "archive.h"
#include "lives.h"
#include "names.h"
#include "records.h"

static const struct journal_asked accepting = {.accepts_damage = 1};
static const char first[] = "journal 2 sign rules 1 description bench\n", set[] = "set 1.3.6.1.5 INTEGER 7\n",
                  moment[] = "start - 1795543676 1\nclock 1795543676 1\n", more[] = "ticks 3\ndatagram 31\n";

/* A journal that begins with a state. */
static const char *shortened(void)
{
    static char made[4096];
    snprintf(made, sizeof made, "%s%s%s%s%s", first, state_text, set, moment, more);
    return made;
}

static size_t count_in(const char *what, const char *text)
{
    size_t count = 0;
    for (const char *at = text; (at = strstr(at, what)) != NULL; at++) {
        count++;
    }
    return count;
}

/* ---- what stands there */

/* A state takes the place of the lines, and the next life goes on from it. */
static void in_place(void)
{
    char begun[512], state[32];
    clear();
    check("a journal is shortened", lives("tkhtks") == 0 && is_in("+ + = ", handed));
    check("it is on the disk before it has its name", is_in("ddsrsd", done));
    read_lines();
    snprintf(begun, sizeof begun, "%s%s%sstart ", first, state_text, set);
    check("it begins with the state", strncmp(lines, begun, strlen(begun)) == 0 && !is_in("datagram", lines));
    check("and with the time", count_in("\nclock ", lines) == 2);
    snprintf(state, sizeof state, "s%zu,1 ", strlen(state_text));
    check("it is gone on from", lives("ktk") == 0 && strncmp(handed, state, strlen(state)) == 0 && !is_in("d ", handed));
    check("with the lines behind it", lives("") == 0 && is_in("d t1 d ", handed));
    check("and shortened again", lives("sks") == 0 && is_in("= + = ", handed) && said[0] == '\0');
    read_lines();
    check("with one value", strncmp(lines, begun, strlen(begun)) == 0 && count_in("\nset ", lines) == 1);
    check("no file beside", found_beside(".*", handed) == 0);
}

/* The moment of a line. */
static int64_t wall_of(const char *line) { return strtoll(strchr(line + 1, ' '), NULL, 10); }

/* The clock says up to when the sign was handed its seconds. */
static void same_time(void)
{
    clear();
    check("seconds behind a clock", lives("mttttttttths") == 0);
    read_lines();
    const char *clock = strstr(lines, "\nclock "), *last = strstr(clock + 1, "\nclock ");
    check("are in the time", clock != NULL && last != NULL && wall_of(last) - wall_of(clock) <= 1);
    int64_t late = wall_of(clock) - moment_at(running()).wall;
    check("which is that of the sign", late >= 67 && late <= 70);
}

/* Of a sign without power the moment at which it went is kept. */
static void without_power(void)
{
    char text[4096];
    clear();
    check("without power", lives("tomms") == 0);
    read_lines();
    const char *begun = strstr(lines, "\nstart "), *lost = strstr(begun, "\nclock "), *then = strstr(lost + 1, "\nclock ");
    check("both moments", count_in("\nstart ", lines) == 2 && wall_of(then) - wall_of(lost) >= 119);
    snprintf(text, sizeof text, "%sstate 1 sign\npowered 0\nend\n%s%s", first, moment,
             "start - 1795543776 101\nclock 1795543776 101\n");
    make(text);
    check("goes on without", lived((struct journal_asked){.down = DOWN_PROCESS}, "") == 0 && is_in("off ", handed));
    make(text);
    check("a loss", lived((struct journal_asked){.down = DOWN_POWER}, "") == 0 && !is_in("off ", handed));
    read_lines();
    const char *back = strstr(lines, "power-back ");
    int64_t since = moment_at(running()).wall - 1795543676, told = back != NULL ? strtoll(back + 11, NULL, 10) : 0;
    check("counts from its beginning", since < 0 ? told == UINT32_MAX : llabs(told - since) < 60);
}

/* ---- what is refused */

/* The octets behind the record with which the state's part ends. */
static size_t base_of(const char *text) { return (size_t)(strstr(text, "ticks 3 #") - text); }

/* The line in which an octet stands, as it is told. */
static const char *damaged_at(const char *text, size_t at)
{
    static char told[64];
    while (at > 0 && text[at - 1] != '\n') {
        at--;
    }
    snprintf(told, sizeof told, "damaged at octet %zu:", at);
    return told;
}

/* Each beginning of a journal gives the state and whole lines, or is refused, also where damage is accepted. */
static void cut_anywhere(size_t step)
{
    static char text[4096], found[4096];
    make(shortened());
    size_t length = size, base = base_of(octets), state = strlen("state ") + (size_t)(strchr(octets, '\n') - octets) + 1;
    memcpy(text, octets, length);
    for (size_t kept = 0; kept <= length; kept += step) {
        int is_refused = kept >= state && kept < base;
        clear();
        write_file(path, text, kept);
        int status = lived(accepting, "");
        if (is_refused) {
            check("a part of a state", status == 2 && is_in(damaged_at(text, kept), said) && handed[0] == '\0');
            check("stays", read_file(path, found) == kept && memcmp(found, text, kept) == 0);
        } else if (kept >= base) {
            check("a state and a part", status == 0 && is_in("s36,1 ", handed));
            check("its lines", is_in("t3 ", handed) == (kept > base && memchr(text + base, '\n', kept - base) != NULL)
                                   && is_in("d ", handed) == (kept == length));
        }
    }
}

/* A changed octet of what was written with the state is refused always, and else until damage is accepted. */
static void changed(size_t step)
{
    static char text[4096], found[4096];
    make(shortened());
    size_t length = size, base = base_of(octets), begun = (size_t)(strchr(octets, '\n') - octets) + 1;
    memcpy(text, octets, length);
    for (size_t at = 0; at < length; at += step) {
        clear();
        text[at] ^= 1;
        write_file(path, text, length);
        int status = lived(at < base ? accepting : (struct journal_asked){0}, "");
        check("a changed octet", status == 2 && handed[0] == '\0');
        check("is told", at < begun || at >= base || is_in(damaged_at(octets, at), said));
        check("stays", read_file(path, found) == length && memcmp(found, text, length) == 0);
        text[at] ^= 1;
    }
}

/* Records that are exchanged or left out. */
static void in_other_order(void)
{
    static char text[4096];
    make(shortened());
    size_t length = size;
    for (size_t at = line_end(octets, length, 0), end, after; at < length; at = end) {
        end = line_end(octets, length, at);
        after = line_end(octets, length, end);
        if (end == length) {
            break;
        }
        memcpy(text, octets, at);
        memcpy(text + at, octets + end, length - end);
        write_file(path, text, length - (end - at));
        check("a record is left out", lives("") == 2 && is_in("damaged", said));
        memcpy(text + at, octets + end, after - end);
        memcpy(text + at + (after - end), octets + at, end - at);
        memcpy(text + after, octets + after, length - after);
        write_file(path, text, length);
        check("two are exchanged", lives("") == 2 && is_in("damaged", said));
    }
}

/* What is no state of this form, or stands elsewhere, is refused by name. */
static void by_name(void)
{
    static const struct {
        const char *behind, *words; /* of the first line, with the state where that is a null */
    } rows[] = {
        {"state 2 sign\nmore\nend\n", "it begins with 'state 2 sign', and this front end knows 'state 1 sign'"},
        {"state 1 centre\nend\n", "it begins with 'state 1 centre'"},
        {"state 1 sign\nend\nset 1.3.6.1.5 INTEGER x\n", "set 1.3.6.1.5 INTEGER x"},
        {"state 1 sign\nend\nset 1.3.6.1.5\n", "set 1.3.6.1.5"},
        {"state 1 sign\nend\nset 1.3.6.1.5 INTEGER 3 number 0 9\n", "set 1.3.6.1.5 INTEGER 3 number"},
        {"state 1 sign\nend\nhello\n", "record 4, at octet"},
        {"state 1 sign\nend\nstart - 1 1\nticks 5\n", "knows its line: ticks 5"},
        {"state 1 sign\nend\nclock 1 1\n", "knows its line: clock 1 1"},
        {"state 1 sign\nend\nstart - 1 1\nclock 1 1\nset 1.3.6.1.5 INTEGER 7\n", "knows its line: set "},
        {"state 1 sign\nend\nstart - 1 1\nclock 1 1\nstate 1 sign\nend\n", "knows its line: state 1 sign"},
        {"start - 1 1\nclock 1 1\nstate 1 sign\nend\n", "knows its line: state 1 sign"},
        {"state 1 sign\nbad\nend\nstart - 1 1\nclock 1 1\n", "state line 2: no state of this sign"},
    };
    for (size_t at = 0; at < sizeof rows / sizeof *rows; at++) {
        clear();
        make(with(first, rows[at].behind));
        check(rows[at].words, lived(accepting, "k") == 2 && is_in(rows[at].words, said) && !is_in("+ ", handed));
        check("stays", read_file(path, lines) == size && memcmp(lines, octets, size) == 0);
    }
}

/* ---- disks, and what is kept */

/* A disk that refuses in the middle: the old journal stays in force. */
static void refusing_disk(void)
{
    clear();
    check("a full disk", lives("ktkzsrtks") == 0 && is_in("+ + ! + = ", handed));
    read_lines();
    check("room later", strncmp(lines, with(first, "state 1 sign\n"), strlen(first) + 13) == 0);
    check("a full disk at last", lives("tkzs") == UNRECORDED && is_in("s36,1 ", handed) && is_in("+ ! ", handed));
    check("stays in force", lives("") == 0 && is_in("s36,1 ", handed) && is_in("d ", handed));
    check("no part is left", found_beside(".new", handed) == 0);
    write_file(beside(".new"), "a part", 6);
    check("one of an earlier kill is", lives("sk") == 0 && is_in("= + ", handed) && found_beside(".new", handed) == 0);
}

/* Killed at any call there is one whole journal of the same sign, and what was answered is in it. */
static void killed(int has_archive)
{
    int status = KILLED, states = 0;
    for (int at = 1; status == KILLED; at++) {
        clear();
        if (has_archive) {
            (void)mkdir(beside(".kept"), 0700);
        }
        make(with(head, "ticks 4\ndatagram 3001\n"));
        killed_at = at;
        status = lives("ks");
        killed_at = 0;
        size_t answered = count_in("+ ", handed), is_over = count_in("= ", handed);
        check("a kill", status == KILLED || (status == 0 && is_over == 1));
        check("is gone on from", lives("") == 0);
        size_t datagrams = count_in("d ", handed), is_state = count_in("s36,1 ", handed);
        check("to the lines or the state", is_state == 1 ? datagrams == 0 : is_over == 0 && is_in("t4 d ", handed));
        check("with what was answered", is_state == 1 || datagrams > answered);
        check("and shortened", lives("ks") == 0 && is_in("+ = ", handed) && found_beside(".new", handed) == 0);
        states += is_state == 1;
    }
    check("a kill behind the new file's name", states > 1);
}

/* What is cut off is kept, once each. */
static void archived(void)
{
    clear();
    (void)mkdir(beside(".kept"), 0700);
    for (int at = 0; at < 12; at++) {
        check("an archive", lives("ks") == 0 && is_in("+ = ", handed));
        check("it is on the disk before the new file has its name", is_in("dslsrsd", done));
    }
    check("each old file", found_beside(".kept/journal.20*-*", handed) == 12 && count_in("\ndatagram 3000 ", handed) == 12);
    check("the last one", found_beside(".kept/journal.*-12", handed) == 1 && count_in("\nstate 1 sign ", handed) == 1);
    check("the first one", found_beside(".kept/journal.*-1", handed) == 1 && count_in("\nstate 1 sign ", handed) == 0);
    check("killed behind it", archive_keep(beside(".kept"), path) == 0 && lives("s") == 0);
    check("has one name", found_beside(".kept/*", handed) == 13);
    check("and no other", archive_keep("/nowhere/at/all", path) != 0 && !archive_is(path) && archive_is(beside(".kept")));
}

/* A folder on another disk has a copy; where that lacks room no part of one is left: each try would leave another. */
static void archived_elsewhere(void)
{
    clear();
    check("no room for the old file", lives("kkkkkkkkels") == UNRECORDED && is_in("! ", handed));
    check("no part of it", found_beside(".kept/*", handed) == 0 && found_beside(".new", handed) == 0);
    check("room later", lives("elsrs") == 0 && is_in("! = ", handed));
    check("each octet of it", found_beside(".kept/*", handed) == 1 && count_in("\ndatagram 3000 ", handed) == 8);
    check("under its name", found_beside(".kept/journal.20*-1", handed) == 1);
}

/* ---- links */

static char link_path[512], real_path[512];

/* From here on the test looks beside the link, or beside the file that it leads to. */
static void look_beside(const char *where) { snprintf(path, sizeof path, "%s", where); }

static ino_t inode_of(const char *name)
{
    struct stat found = {0};
    (void)stat(name, &found);
    return found.st_ino;
}

/* A life by way of the link, which is there after it, and alone there: its status. The test then looks at the file. */
static int linked_lives(const char *steps)
{
    struct stat found;
    look_beside(link_path);
    int status = lived(accepting, steps);
    check("the link stays", lstat(link_path, &found) == 0 && S_ISLNK(found.st_mode));
    size_t size_of_path = strlen(link_path);
    check("what is said has its path", said[0] == '\0' || strncmp(said, link_path, size_of_path) == 0);
    look_beside(real_path);
    check("the file is a file", lstat(real_path, &found) == 0 && S_ISREG(found.st_mode));
    return status;
}

/* One front end holds it by both names. */
static void held_by_both_names(void)
{
    int held = open(real_path, O_RDWR | O_CLOEXEC);
    check("held", held >= 0 && flock(held, LOCK_EX) == 0);
    check("by the link", linked_lives("k") == 2 && is_in(": another front end holds this journal", said));
    check("by the name", lives("k") == 2 && is_in(": another front end holds this journal", said));
    close(held);
}

/* Where the path is a link, the file that it leads to is written, shortened, cut and written anew. */
static void linked(void)
{
    clear();
    snprintf(link_path, sizeof link_path, "%s", path);
    snprintf(real_path, sizeof real_path, "%.500s", beside(".disk/file"));
    (void)mkdir(beside(".disk"), 0700);
    check("a link by way of a link",
          symlink("journal.way", link_path) == 0 && symlink("journal.disk/file", beside(".way")) == 0);
    check("a link to nothing", linked_lives("ktk") == 0 && is_in("+ + ", handed));
    read_lines();
    ino_t before = inode_of(real_path);
    check("shortened", linked_lives("ks") == 0 && is_in("+ = ", handed) && inode_of(real_path) != before);
    read_lines();
    check("to the state", is_in(state_text, lines) && found_beside("*", handed) == 1);
    check("gone on from", linked_lives("k") == 0 && strncmp(handed, "s36,1 ", 6) == 0);
    write_file(path, octets, size - 5);
    check("torn", linked_lives("k") == 0 && is_in("kept as", said) && found_beside(".cut-*", handed) == 1);
    make_older("journal 1 sign rules 1 description bench\nstart - 1795543676 1\nclock 1795543676 1\nticks 4\n");
    check("form 1", linked_lives("k") == 0 && is_in("t4 ", handed) && found_beside(".form1", handed) == 1);
    held_by_both_names();
    clear();
    look_beside(link_path);
    check("a link to itself", unlink(beside(".way")) == 0 && symlink(link_path, beside(".way")) == 0);
    check("is refused", lives("k") == 2 && is_in("Too many levels of symbolic links", said));
    clear();
}

/* No journal has the name of what is written beside one. */
static void named_beside(void)
{
    char name[512];
    snprintf(name, sizeof name, "%s", path);
    look_beside(beside(".new"));
    check("a name beside", lives("k") == 2 && is_in(" is no name of a journal", said) && access(path, F_OK) != 0);
    write_file(path, "", 0);
    look_beside(name);
    check("a link to it", symlink(beside(".new"), path) == 0 && lives("k") == 2 && is_in(" is no name of a journal", said));
    clear();
}

/* The order of names is that of their numbers. */
static void ordered(void)
{
    static const char *const names[] = {"1.3.6.1.5 NULL", "1.3.6.1.127 NULL", "1.3.6.1.128 NULL", "1.3.6.1.16384 NULL",
                                        "1.3.6.1.16500 NULL", "1.3.6.2 NULL", "2.100.3 NULL"};
    enum { COUNT = sizeof names / sizeof *names };
    struct sets sets = {.count = 0};
    for (size_t at = 0; at < 3 * COUNT; at++) {
        const char *name = names[at * 4 % COUNT];
        check("there is memory", sets_put(&sets, name, strlen(name)));
    }
    for (size_t at = 0; at < COUNT; at++) {
        check("names are in order", sets.count == COUNT && sets.items[at].size == strlen(names[at])
                                        && memcmp(sets.items[at].words, names[at], sets.items[at].size) == 0);
    }
    sets_free(&sets);
}

int main(int count, char **words)
{
    size_t step = count == 3 ? (size_t)strtoul(words[2], NULL, 10) : 0;
    if (step == 0) {
        fputs("usage: states_test FOLDER STEP\n", stderr);
        return 2;
    }
    snprintf(path, sizeof path, "%s/journal", words[1]);
    in_place();
    same_time();
    without_power();
    cut_anywhere(step);
    changed(step);
    in_other_order();
    by_name();
    refusing_disk();
    killed(0);
    archived();
    archived_elsewhere();
    killed(1);
    linked();
    named_beside();
    ordered();
    if (!failed) {
        puts("ok");
    }
    return failed;
}
