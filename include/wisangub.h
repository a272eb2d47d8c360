/*
 * The proved sign and the proved central system of Wisangub for C (C11) and C++ (C++11).
 *
 * Targets: 64-bit Linux on x86-64 and on ARM64. On x86-64 the library wants a processor of the level x86-64-v2 (SSE4
 * and POPCNT; all since 2013), and an older one ends the program by SIGILL; `make -C examples CPU=x86-64` builds it for
 * any x86-64. There is none for 32 bits and none for bare metal: docs/C.md, "Targets". What a call takes at most of
 * heap, stack and instructions stands there too, as it was measured.
 *
 * What each function of the library does is proved: docs/PROVED.md, "Beside", has the contracts. Not proved is what
 * this header and its callers have to keep:
 *   - The declarations below are those of the library, and the functions of this header hand on what they are given.
 *     The project's tests call each.
 *   - `at` is null before the first use, and after that what the library wrote there: nobody else writes it, and a
 *     struct is not copied, for two copies of a struct wisangub_sign are one sign. A sign is used only between
 *     wisangub_sign_new, which answered WISANGUB_DONE, and wisangub_sign_free.
 *   - One sign is used by one thread at a time, also by calls that take it as `const`; two signs may be used by two
 *     threads at once, where the heap may. A sign may go from one thread to another by a lock. No function is called
 *     from a signal handler, an interrupt, or a forked child of a process with threads.
 *   - A pointer that comes with a size points to at least so many octets, and no two pointers of one call overlap.
 *   - The heap keeps what is said of rattle_alloc below.
 *
 * There is no global state, no thread, no exit and no abort. The two `_new` and the two `_restore` take memory (by
 * rattle_alloc), and wisangub_sign_free and wisangub_centre_free give it back; wisangub_sign_publish takes memory for
 * an object, which is given back as the object is withdrawn or another stands in its place; the two calls that draw
 * pages, the three that say why something is refused, wisangub_sign_restore_objects, and the command of a central
 * system, take memory and give it back before they answer; a central system takes some for its ledger, where its command
 * or tick answers MEMORY if there is none; no other call takes any. Sizes are octets and times are seconds. The
 * functions answer one of enum wisangub_answer. What is `const` is only read.
 *
 * A call that fills a buffer gives the size that it needs in *size. Where the room is smaller it answers TOO_SMALL and
 * does nothing else, and may be called again; null with a room of 0 asks for the size alone.
 *
 * The functions of this header are in the library too, under the same names (wisangub.c, beside this header), for
 * callers in other languages: examples/from_python.py and examples/from_rust.rs. To these an enum is 32 bits, as an
 * argument and as an answer.
 */
#ifndef WISANGUB_H
#define WISANGUB_H

#include <stddef.h>
#include <stdint.h>

#if SIZE_MAX != UINT64_MAX
#error "wisangub: the library is for 64-bit targets alone (docs/C.md, Targets)"
#endif

#ifdef __cplusplus
extern "C" {
#endif

/* The version of this header; wisangub_version() is that of the library. */
#define WISANGUB_VERSION "1.0.0"

/* A name of the library that has its version in it, and the value 1: each program that makes a sign or a central system
 * asks for it, so that a header and a library of two versions do not link. */
#define WISANGUB_OF_THIS_VERSION wisangub_1_0_0
extern const uint8_t WISANGUB_OF_THIS_VERSION;

const char *wisangub_version(void);

/*
 * The heap is the caller's: these three functions are not in the library. examples/heap.c has them over malloc
 * (libwisangub_heap.a), and examples/arena.c over a static array. A block is aligned to `align`, a power of two of at
 * most 16, and stays where it is until it is given to rattle_realloc or rattle_dealloc. A size may be 0. Of a block
 * that is to have another size the first `kept` octets stay as they are, also where it moves; they are at most `size`.
 * Where there is no memory `has` is 0, and a block that was to have another size stays as it was; `at` is not null even
 * then. Two threads that use two signs may call these functions at once.
 */
struct rattle_had {
    uint64_t has; /* 1 where there is memory, else 0 */
    void *at;
};
struct rattle_had rattle_alloc(size_t size, size_t align);
struct rattle_had rattle_realloc(void *at, size_t kept, size_t size, size_t align);
void rattle_dealloc(void *at);

/* The most octets of a datagram, and the least room for a reply. */
#define WISANGUB_DATAGRAM 1472

enum wisangub_answer {
    WISANGUB_DONE = 0,      /* it is done */
    WISANGUB_NOTHING = 1,   /* it is done, and there is nothing to send */
    WISANGUB_TOO_SMALL = 2, /* a buffer is too small; nothing is done, and the size that is needed is given */
    WISANGUB_MEMORY = 3,    /* no memory; nothing is done */
    WISANGUB_FAULT = 4,     /* what was given is at fault; nothing is done */
    WISANGUB_NULL = 5,      /* a pointer is null; nothing is done */
    WISANGUB_BUSY = 6,      /* a job is not done yet; the command is not taken */
    WISANGUB_USED_UP = 7,   /* no request number is left; the command is not taken */
    WISANGUB_RANGE = 8,     /* a value is out of its range, of a command too, which is not taken; nothing is done */
    WISANGUB_STATE = 9      /* a text is no state of the sign, or of a central system; nothing is done */
};

/* A sign. Set `at` to null before the first use: `struct wisangub_sign sign = {NULL};` */
struct wisangub_sign {
    void *at;
};

/* What a sign shows, but for its text. The row is named as the code that activated it named it (dmsMsgTableSource). */
struct wisangub_shown {
    uint32_t minutes;  /* that are left, rounded up; 65535 is without an end (dmsMessageTimeRemaining) */
    uint16_t number;   /* of the row */
    uint16_t checksum; /* of the message */
    uint8_t memory;    /* 1 other, 2 permanent, 3 changeable, 4 volatile, 5 current buffer, 6 schedule, 7 blank */
    uint8_t mode;      /* what activated it (dmsMsgSourceMode) */
    uint8_t priority;  /* 1 to 255 */
    uint8_t beacon;    /* 1 where the beacons are on, else 0 */
    uint8_t pixel;     /* 1 where the pixel service is on, else 0 */
};

/* Why a text cannot be shown, and where. */
struct wisangub_text_fault {
    size_t place; /* the offset in octets, from 0 */
    uint8_t code; /* dmsMultiSyntaxError, 3 to 13 */
};

/* Which cause it is for which a description or a command is refused; docs/PROFILE.md has their lines. */
enum wisangub_kind {
    WISANGUB_CAUSE_MISSING = 1,           /* the line ends where a word is wanted */
    WISANGUB_CAUSE_EMPTY = 2,             /* two spaces, or a space at an end of the line */
    WISANGUB_CAUSE_OTHER = 3,             /* another word is wanted */
    WISANGUB_CAUSE_MORE = 4,              /* no more words are wanted */
    WISANGUB_CAUSE_NO_END = 5,            /* the text ends before its line `end` */
    WISANGUB_CAUSE_KEYWORD = 6,           /* no line begins with this word here */
    WISANGUB_CAUSE_ROW_AFTER_FONT = 7,    /* a permanent row stands before all fonts */
    WISANGUB_CAUSE_GLYPH_BEFORE_FONT = 8, /* a character stands after its font */
    WISANGUB_CAUSE_PICTURE = 9,           /* the bits of a character do not fit its picture */
    WISANGUB_CAUSE_GLYPH_TWICE = 10,      /* the font has the character already */
    WISANGUB_CAUSE_GLYPHS = 11,           /* the font has 255 characters already */
    WISANGUB_CAUSE_AFTER_END = 12,        /* no line may stand after `end` */
    WISANGUB_CAUSE_WIDTH = 13,            /* the columns of the matrix */
    WISANGUB_CAUSE_HEIGHT = 14,           /* the rows of the matrix */
    WISANGUB_CAUSE_FONTS = 15,            /* how many fonts there are */
    WISANGUB_CAUSE_FONT_TWICE = 16,       /* two fonts have this number */
    WISANGUB_CAUSE_BACKGROUND = 17,       /* a default that is no colour */
    WISANGUB_CAUSE_FOREGROUND = 18,       /* a default that is no colour */
    WISANGUB_CAUSE_LINE = 19,             /* a default that is no justification of lines */
    WISANGUB_CAUSE_PAGE = 20,             /* a default that is no justification of pages */
    WISANGUB_CAUSE_FONT = 21,             /* a default that is the number of no font */
    WISANGUB_CAUSE_READER = 22,           /* the octets of the first community */
    WISANGUB_CAUSE_WRITER = 23,           /* the octets of the second community */
    WISANGUB_CAUSE_COMMUNITIES = 24,      /* both are the same */
    WISANGUB_CAUSE_PERMANENT = 25,        /* how many permanent rows there are */
    WISANGUB_CAUSE_CHANGEABLE = 26,       /* how many changeable rows there are */
    WISANGUB_CAUSE_VOLATILE = 27,         /* how many volatile rows there are */
    WISANGUB_CAUSE_ROW_TEXT = 28,         /* the octets of a permanent row's text */
    WISANGUB_CAUSE_ROW_OWNER = 29,        /* the octets of its owner */
    WISANGUB_CAUSE_ROW_BEACON = 30,       /* its beacon */
    WISANGUB_CAUSE_ROW_PIXEL = 31,        /* its pixel service */
    WISANGUB_CAUSE_ROW_PRIORITY = 32,     /* its priority */
    WISANGUB_CAUSE_NO_BEACONS = 33,       /* it wants beacons, which the sign has not */
    WISANGUB_CAUSE_NO_PIXEL_SERVICE = 34, /* it wants a pixel service, which the sign has not */
    WISANGUB_CAUSE_TEXT = 35              /* its text cannot be shown: `code` and `place` */
};

/* What a word is to be. */
enum wisangub_wanted {
    WISANGUB_WANTED_WORD = 1,    /* this word */
    WISANGUB_WANTED_EITHER = 2,  /* one of two words */
    WISANGUB_WANTED_ANY = 3,     /* any word */
    WISANGUB_WANTED_NUMBER = 4,  /* a number from `least` to `most` */
    WISANGUB_WANTED_OCTETS = 5,  /* octets in hexadecimal digits, `-` for none */
    WISANGUB_WANTED_VERSION = 6, /* four hexadecimal digits */
    WISANGUB_WANTED_ADDRESS = 7, /* four numbers, as 192.0.2.1 */
    WISANGUB_WANTED_CODE = 8     /* twenty-four hexadecimal digits */
};

/* Why a description or a command is refused, in numbers. One that says nothing of its kind is 0. */
struct wisangub_cause {
    size_t line;    /* from 1; where a line is missing, the number after the last one; of a command 1 */
    size_t word;    /* of the line, from 1 */
    size_t row;     /* the permanent row, from 1 */
    size_t place;   /* of a text that cannot be shown, the offset in octets, from 0 */
    uint32_t least; /* the least number that is wanted, or the least of what is counted */
    uint32_t most;  /* the greatest number that is wanted, or the most of what is counted */
    uint8_t kind;   /* enum wisangub_kind */
    uint8_t wanted; /* enum wisangub_wanted, of a word that is missing, or is another one */
    uint8_t number; /* of the font, or the default, that stands there */
    uint8_t code;   /* of a text that cannot be shown (dmsMultiSyntaxError), 3 to 13 */
};

/* What a sign lacks for a text that cannot be shown. */
enum wisangub_lack {
    WISANGUB_LACK_NOTHING = 0,   /* nothing that a sign may have; so too where there is no memory to look */
    WISANGUB_LACK_CHARACTER = 1, /* a picture of `character` in the font `font` */
    WISANGUB_LACK_FONT = 2,      /* the font `font` */
    WISANGUB_LACK_COLUMNS = 3,   /* `count` columns of the matrix */
    WISANGUB_LACK_ROWS = 4,      /* `count` rows of the matrix */
    WISANGUB_LACK_OCTETS = 5     /* a text has `count` octets too many */
};

/* Why a text cannot be shown, where, and what the sign lacks for it. One that says nothing of its kind is 0. */
struct wisangub_text_cause {
    size_t place;       /* the offset in octets, from 0 */
    size_t count;       /* of what is lacking */
    uint16_t character; /* that is lacking */
    uint8_t font;       /* that is lacking, or lacks the character */
    uint8_t code;       /* dmsMultiSyntaxError, 3 to 13 */
    uint8_t lack;       /* enum wisangub_lack */
};

/* What a code says. A message is named by its memory, its number and its checksum alone. */
struct wisangub_code {
    uint16_t minutes;   /* how long it is shown; 65535 is without an end */
    uint16_t number;    /* of the row in its memory */
    uint16_t checksum;  /* of the message: wisangub_crc; 0 of a blank one */
    uint8_t priority;   /* with which it is activated */
    uint8_t memory;     /* 2 permanent, 3 changeable, 4 volatile, 5 current buffer, 7 blank */
    uint8_t address[4]; /* the IPv4 address of the one who activates it */
};

/* Which octet of a checksum is first in a code: the description's line `order`. */
enum wisangub_order { WISANGUB_HIGH = 0, WISANGUB_SWAPPED = 1 };

/* What an octet of a page says of its cell. */
enum wisangub_layer {
    WISANGUB_LOOK = 0,      /* its colour, 0 to 9, and the bits below */
    WISANGUB_FLASH_LIT = 1, /* how long it is lit while it flashes, in tenths of a second; 0 where it does not flash */
    WISANGUB_FLASH_DARK = 2 /* how long it is dark while it flashes, in tenths of a second; 0 where it does not flash */
};

/* Of a look: the colour that is lit or, without WISANGUB_LIT, the page's background, and how. */
#define WISANGUB_COLOUR 15
#define WISANGUB_LIT 16
#define WISANGUB_FLASHES 32
#define WISANGUB_DARK_FIRST 64

/* The octets of a page before those of its cells: how long it is shown and how long nothing is shown after it, both in
 * tenths of a second, and its background. */
#define WISANGUB_PAGE_HEAD 3

/* A page of what a sign shows, but for its cells. */
struct wisangub_page {
    size_t count;       /* how many pages there are */
    uint8_t on;         /* how long it is shown, in tenths of a second */
    uint8_t off;        /* how long nothing is shown after it, in tenths of a second */
    uint8_t background; /* its colour */
};

/*
 * Objects that firmware publishes beside the sign's, as sysDescr.0 or a photocell (docs/OBJECTS.md). Names go as the
 * octets of an object identifier (X.690, 8.19): those of 1.3.6.1.2.1.1.1.0 are 43, 6, 1, 2, 1, 1, 1 and 0;
 * examples/names.c makes them of numbers with dots, and numbers of them. A name has at most so many.
 */
#define WISANGUB_NAME 635

/* The type of an object's value: the tag that it has in a message (RFC 1155). */
enum wisangub_type {
    WISANGUB_INTEGER = 2,           /* its number, -2147483648 to 4294967295 */
    WISANGUB_OCTET_STRING = 4,      /* its octets */
    WISANGUB_NO_VALUE = 5,          /* NULL: neither a number nor octets */
    WISANGUB_OBJECT_IDENTIFIER = 6, /* its octets, as those of a name */
    WISANGUB_IP_ADDRESS = 64,       /* its four octets */
    WISANGUB_COUNTER = 65,          /* its number, 0 to 4294967295 */
    WISANGUB_GAUGE = 66,            /* its number, 0 to 4294967295 */
    WISANGUB_TIME_TICKS = 67,       /* its number, 0 to 4294967295, in hundredths of a second */
    WISANGUB_OPAQUE = 68            /* its octets */
};

/* The value of an object, but for the octets of a type that has them. */
struct wisangub_value {
    int64_t number; /* of a type that has one; of another it is not read, and given as 0 */
    uint8_t type;   /* enum wisangub_type */
};

/* What a manager may write to an object. */
enum wisangub_writes {
    WISANGUB_READ_ONLY = 0, /* nothing; `least` and `most` are not read */
    WISANGUB_NUMBERS = 1,   /* an INTEGER from `least` to `most` */
    WISANGUB_OCTETS = 2     /* an OCTET STRING of `least` to `most` octets, each 0 to 65535 */
};
struct wisangub_access {
    int64_t least;
    int64_t most;
    uint8_t writes; /* enum wisangub_writes */
};

/* A central system of one sign. Set `at` to null before the first use. What is said of a sign above goes for it too. */
struct wisangub_centre {
    void *at;
};

/* What became of a code that a central system sent. */
enum wisangub_outcome {
    WISANGUB_WAITS = 0,
    WISANGUB_ACCEPTED = 1,
    WISANGUB_REFUSED = 2,
    WISANGUB_NO_REPLY = 3,
    WISANGUB_UNKNOWN = 4 /* the central system was restarted while it waited */
};

/*
 * An entry of the ledger. The code of an `activate` is what its line says: of one whose type of memory is none
 * wisangub_activation_code gives no octets.
 */
struct wisangub_entry {
    int64_t status;             /* the error-status of a refusal, else 0 */
    uint32_t number;            /* of the request */
    uint8_t outcome;            /* enum wisangub_outcome */
    struct wisangub_code code;  /* as the request carried it */
};

/* How the last job ended. */
enum wisangub_ended { WISANGUB_NEVER = 0, WISANGUB_DID = 1, WISANGUB_FAILED = 2 };

/* Why it failed; of those with a value it is in `value`. */
enum wisangub_why {
    WISANGUB_WHY_STATUS = 1,       /* the reply has this error-status */
    WISANGUB_WHY_ROW = 2,          /* the row has this status, which is not the one that was to come */
    WISANGUB_WHY_VALIDATING = 3,   /* the row was still being validated at the tenth poll */
    WISANGUB_WHY_CHECKSUM = 4,     /* the sign's message has another checksum */
    WISANGUB_WHY_NO_REPLY = 5,     /* to any of three sends */
    WISANGUB_WHY_USED_UP = 6,      /* no request number is left */
    WISANGUB_WHY_ODD_REPLY = 7,    /* the reply does not answer what was asked */
    WISANGUB_WHY_CAUSE = 8,        /* the sign refused the activation for this cause (dmsActivateMsgError) */
    WISANGUB_WHY_RESTARTED = 9
};

/* How a central system stands. */
struct wisangub_status {
    int64_t value;  /* of why the last job failed, else 0 */
    size_t entries; /* of the ledger */
    uint8_t busy;   /* 1 while a job is on, else 0 */
    uint8_t last;   /* enum wisangub_ended */
    uint8_t step;   /* at which the last job failed, 1 to 8, else 0 */
    uint8_t why;    /* enum wisangub_why, else 0 */
};

/* Layouts are fixed: a compiler that lays a struct out otherwise than the library does not compile this header. */
#ifdef __cplusplus
#define WISANGUB_FIXED(is_so) static_assert(is_so, "wisangub: not the layout of the library")
#else
#define WISANGUB_FIXED(is_so) _Static_assert(is_so, "wisangub: not the layout of the library")
#endif
#define WISANGUB_AT(type, field, offset) WISANGUB_FIXED(offsetof(struct wisangub_##type, field) == (offset))
#define WISANGUB_SIZE(type, size) WISANGUB_FIXED(sizeof(struct wisangub_##type) == (size))
WISANGUB_FIXED(sizeof(enum wisangub_answer) == 4 && sizeof(void *) == 8 && sizeof(struct rattle_had) == 16);
WISANGUB_SIZE(sign, 8);
WISANGUB_SIZE(centre, 8);
WISANGUB_SIZE(shown, 16);
WISANGUB_AT(shown, minutes, 0);
WISANGUB_AT(shown, number, 4);
WISANGUB_AT(shown, checksum, 6);
WISANGUB_AT(shown, memory, 8);
WISANGUB_AT(shown, mode, 9);
WISANGUB_AT(shown, priority, 10);
WISANGUB_AT(shown, beacon, 11);
WISANGUB_AT(shown, pixel, 12);
WISANGUB_SIZE(text_fault, 16);
WISANGUB_AT(text_fault, place, 0);
WISANGUB_AT(text_fault, code, 8);
WISANGUB_SIZE(cause, 48);
WISANGUB_AT(cause, line, 0);
WISANGUB_AT(cause, word, 8);
WISANGUB_AT(cause, row, 16);
WISANGUB_AT(cause, place, 24);
WISANGUB_AT(cause, least, 32);
WISANGUB_AT(cause, most, 36);
WISANGUB_AT(cause, kind, 40);
WISANGUB_AT(cause, wanted, 41);
WISANGUB_AT(cause, number, 42);
WISANGUB_AT(cause, code, 43);
WISANGUB_SIZE(text_cause, 24);
WISANGUB_AT(text_cause, place, 0);
WISANGUB_AT(text_cause, count, 8);
WISANGUB_AT(text_cause, character, 16);
WISANGUB_AT(text_cause, font, 18);
WISANGUB_AT(text_cause, code, 19);
WISANGUB_AT(text_cause, lack, 20);
WISANGUB_SIZE(code, 12);
WISANGUB_AT(code, minutes, 0);
WISANGUB_AT(code, number, 2);
WISANGUB_AT(code, checksum, 4);
WISANGUB_AT(code, priority, 6);
WISANGUB_AT(code, memory, 7);
WISANGUB_AT(code, address, 8);
WISANGUB_SIZE(page, 16);
WISANGUB_AT(page, count, 0);
WISANGUB_AT(page, on, 8);
WISANGUB_AT(page, off, 9);
WISANGUB_AT(page, background, 10);
WISANGUB_SIZE(value, 16);
WISANGUB_AT(value, number, 0);
WISANGUB_AT(value, type, 8);
WISANGUB_SIZE(access, 24);
WISANGUB_AT(access, least, 0);
WISANGUB_AT(access, most, 8);
WISANGUB_AT(access, writes, 16);
WISANGUB_SIZE(entry, 32);
WISANGUB_AT(entry, status, 0);
WISANGUB_AT(entry, number, 8);
WISANGUB_AT(entry, outcome, 12);
WISANGUB_AT(entry, code, 14);
WISANGUB_SIZE(status, 24);
WISANGUB_AT(status, value, 0);
WISANGUB_AT(status, entries, 8);
WISANGUB_AT(status, busy, 16);
WISANGUB_AT(status, last, 17);
WISANGUB_AT(status, step, 18);
WISANGUB_AT(status, why, 19);
#undef WISANGUB_AT
#undef WISANGUB_SIZE
#undef WISANGUB_FIXED

/* What is proved, as the compiler of the library lays it out. Use the functions below, which refuse null. */
uint32_t wisangub_sign_new_at(const uint8_t *text, size_t text_size, struct wisangub_sign *sign, uint32_t *first,
                              size_t *line);
uint32_t wisangub_description_cause_at(const uint8_t *text, size_t text_size, struct wisangub_cause *cause,
                                       uint8_t *words, size_t room, size_t *size);
uint32_t wisangub_sign_receive_at(struct wisangub_sign *sign, const uint8_t *datagram, size_t datagram_size,
                                  uint8_t *reply, size_t reply_room, size_t *reply_size);
uint32_t wisangub_sign_restore_at(const uint8_t *text, size_t text_size, const uint8_t *state, size_t state_size,
                                  struct wisangub_sign *sign, uint32_t *first, size_t *line);
uint32_t wisangub_sign_restore_objects_at(struct wisangub_sign *sign, const uint8_t *state, size_t state_size,
                                          size_t *line);
uint32_t wisangub_sign_save_at(const struct wisangub_sign *sign, uint8_t *state, size_t room, size_t *size);
void wisangub_sign_save_most_at(const struct wisangub_sign *sign, size_t *size);
void wisangub_sign_tick_at(struct wisangub_sign *sign);
void wisangub_sign_power_lost_at(struct wisangub_sign *sign);
void wisangub_sign_power_back_at(struct wisangub_sign *sign, uint32_t seconds);
void wisangub_sign_heard_at(struct wisangub_sign *sign);
void wisangub_sign_free_at(struct wisangub_sign *sign);
void wisangub_sign_shown_at(const struct wisangub_sign *sign, struct wisangub_shown *shown);
void wisangub_sign_changes_at(const struct wisangub_sign *sign, uint64_t *changes);
uint32_t wisangub_sign_ends_at(const struct wisangub_sign *sign, uint64_t *tenths);
uint32_t wisangub_sign_page_times_at(const struct wisangub_sign *sign, size_t number, struct wisangub_page *page);
uint32_t wisangub_sign_due_at(const struct wisangub_sign *sign, uint64_t up, uint64_t told, uint64_t *tenths);
void wisangub_sign_matrix_at(const struct wisangub_sign *sign, uint16_t *width, uint16_t *height);
uint32_t wisangub_sign_text_at(const struct wisangub_sign *sign, uint8_t *text, size_t room, size_t *size);
uint32_t wisangub_sign_reader_at(const struct wisangub_sign *sign, uint8_t *community, size_t room, size_t *size);
uint32_t wisangub_sign_writer_at(const struct wisangub_sign *sign, uint8_t *community, size_t room, size_t *size);
uint32_t wisangub_sign_check_at(const struct wisangub_sign *sign, const uint8_t *text, size_t text_size, size_t *pages,
                                struct wisangub_text_fault *fault);
uint32_t wisangub_sign_text_cause_at(const struct wisangub_sign *sign, const uint8_t *text, size_t text_size,
                                     struct wisangub_text_cause *cause, uint8_t *words, size_t room, size_t *size);
uint32_t wisangub_sign_pages_at(const struct wisangub_sign *sign, uint8_t layer, uint8_t *pages, size_t room,
                                size_t *size);
uint32_t wisangub_sign_page_row_at(const struct wisangub_sign *sign, size_t number, uint16_t y, uint8_t layer,
                                   uint8_t *cells, size_t room, size_t *size);
uint32_t wisangub_sign_text_pages_at(const struct wisangub_sign *sign, const uint8_t *text, size_t text_size,
                                     uint8_t layer, uint8_t *pages, size_t room, size_t *size,
                                     struct wisangub_text_fault *fault);
uint32_t wisangub_sign_show_fonts_at(struct wisangub_sign *sign);
uint32_t wisangub_sign_publish_at(struct wisangub_sign *sign, const uint8_t *name, size_t name_size,
                                  const struct wisangub_value *value, const uint8_t *octets, size_t octets_size,
                                  const struct wisangub_access *access);
uint32_t wisangub_sign_withdraw_at(struct wisangub_sign *sign, const uint8_t *name, size_t name_size);
uint32_t wisangub_sign_object_at(const struct wisangub_sign *sign, const uint8_t *name, size_t name_size,
                                 struct wisangub_value *value, uint8_t *octets, size_t room, size_t *size);
uint32_t wisangub_sign_taken_at(struct wisangub_sign *sign, uint8_t *name, size_t name_room, size_t *name_size,
                                struct wisangub_value *value, uint8_t *octets, size_t room, size_t *size);
uint32_t wisangub_row_bits_at(const uint8_t *looks, size_t count, uint8_t *bits, size_t room, size_t *size);
uint32_t wisangub_crc_at(const uint8_t *text, size_t text_size, uint8_t beacon, uint8_t pixel, uint16_t *checksum);
uint32_t wisangub_message_code_at(uint8_t order, const struct wisangub_code *parts, uint8_t *code, size_t room,
                                  size_t *size);
uint32_t wisangub_activation_code_at(uint8_t order, const struct wisangub_code *parts, uint8_t *code, size_t room,
                                     size_t *size);

uint32_t wisangub_centre_new_at(const uint8_t *community, size_t community_size, uint8_t order, uint32_t first,
                                struct wisangub_centre *centre);
uint32_t wisangub_centre_restore_at(const uint8_t *community, size_t community_size, uint8_t order,
                                    const uint8_t *state, size_t state_size, struct wisangub_centre *centre,
                                    size_t *line);
uint32_t wisangub_centre_save_at(const struct wisangub_centre *centre, uint8_t *state, size_t room, size_t *size);
void wisangub_centre_save_size_at(const struct wisangub_centre *centre, size_t *size);
uint32_t wisangub_command_cause_at(const uint8_t *line, size_t line_size, struct wisangub_cause *cause, uint8_t *words,
                                   size_t room, size_t *size);
uint32_t wisangub_centre_command_at(struct wisangub_centre *centre, const uint8_t *line, size_t line_size,
                                    uint8_t *request, size_t request_room, size_t *request_size);
uint32_t wisangub_centre_receive_at(struct wisangub_centre *centre, const uint8_t *datagram, size_t datagram_size,
                                    uint8_t *request, size_t request_room, size_t *request_size);
uint32_t wisangub_centre_tick_at(struct wisangub_centre *centre, uint8_t *request, size_t request_room,
                                 size_t *request_size);
void wisangub_centre_restart_at(struct wisangub_centre *centre);
void wisangub_centre_status_at(const struct wisangub_centre *centre, struct wisangub_status *status);
uint32_t wisangub_centre_entry_at(const struct wisangub_centre *centre, size_t index, struct wisangub_entry *entry);
void wisangub_centre_free_at(struct wisangub_centre *centre);

/* The functions below are compiled with each file that includes this one, and once into the library. */
#ifndef WISANGUB_INLINE
#define WISANGUB_INLINE static inline
#endif

/* A number in an octet; what is too great is 255, which is out of the range of every order and layer. */
static inline uint8_t wisangub_octet(unsigned number)
{
    return number > 255 ? 255 : (uint8_t)number;
}

/* A buffer, or a place for none where its room is 0. */
static inline uint8_t *wisangub_buffer(void *buffer, size_t room, uint8_t *none)
{
    return buffer == NULL && room == 0 ? none : (uint8_t *)buffer;
}

/*
 * Makes the sign of a description (docs/PROFILE.md has its lines). It shows a blank message and has power. Answers
 * DONE, with the number of the first request of its central system in *first; FAULT, with the line for which the
 * description is refused in *line, counted from 1; MEMORY; or NULL, also where the sign is made already.
 */
WISANGUB_INLINE enum wisangub_answer wisangub_sign_new(struct wisangub_sign *sign, const void *text, size_t text_size,
                                                       uint32_t *first, size_t *line)
{
    if (sign == NULL || sign->at != NULL || text == NULL || first == NULL || line == NULL
        || !WISANGUB_OF_THIS_VERSION) {
        return WISANGUB_NULL;
    }
    return (enum wisangub_answer)wisangub_sign_new_at((const uint8_t *)text, text_size, sign, first, line);
}

/*
 * Why wisangub_sign_new refuses a description: its line and the cause in numbers in *cause, and the cause in words, as
 * `word 2: a number from 0 to 65535 is wanted`, in `words`, of which there are *size. Answers DONE; NOTHING, where it
 * is a sign's, with *size 0; TOO_SMALL, and *cause is as it was; MEMORY, which it takes as wisangub_sign_new does and
 * gives back; or NULL.
 */
WISANGUB_INLINE enum wisangub_answer wisangub_description_cause(const void *text, size_t text_size,
                                                                struct wisangub_cause *cause, void *words, size_t room,
                                                                size_t *size)
{
    uint8_t none = 0, *buffer = wisangub_buffer(words, room, &none);
    if (text == NULL || cause == NULL || buffer == NULL || size == NULL || !WISANGUB_OF_THIS_VERSION) {
        return WISANGUB_NULL;
    }
    return (enum wisangub_answer)wisangub_description_cause_at((const uint8_t *)text, text_size, cause, buffer, room,
                                                               size);
}

/*
 * The state of a sign as text, from its line `state 1 sign` to `end`: all that came to be since it was made, as the
 * line `save` answers it (docs/PROFILE.md); and behind it a line `set NAME VALUE` for each published object whose value
 * a manager set, whether wisangub_sign_taken gave it or not. Not in it are what the description says, what firmware
 * publishes, which it publishes again, and the count of wisangub_sign_changes. Answers DONE, with the text in `state`
 * and its size in *size; TOO_SMALL; or NULL. No memory is taken.
 */
WISANGUB_INLINE enum wisangub_answer wisangub_sign_save(const struct wisangub_sign *sign, void *state, size_t room,
                                                        size_t *size)
{
    uint8_t none = 0, *buffer = wisangub_buffer(state, room, &none);
    if (sign == NULL || sign->at == NULL || buffer == NULL || size == NULL) {
        return WISANGUB_NULL;
    }
    return (enum wisangub_answer)wisangub_sign_save_at(sign, buffer, room, size);
}

/*
 * The most octets that wisangub_sign_save gives of any state of a sign of this description, up to its line `end`. The
 * line of an object behind that has 6 more than its name and its value have as words: a number has 19 at most, octets
 * have 13, and two for each. Answers DONE or NULL.
 */
WISANGUB_INLINE enum wisangub_answer wisangub_sign_save_most(const struct wisangub_sign *sign, size_t *size)
{
    if (sign == NULL || sign->at == NULL || size == NULL) {
        return WISANGUB_NULL;
    }
    wisangub_sign_save_most_at(sign, size);
    return WISANGUB_DONE;
}

/*
 * Makes the sign of a description, as wisangub_sign_new does, in the state of a text that wisangub_sign_save gave of a
 * sign of this description: each call answers afterwards what it would have answered there. The time since then is
 * the caller's to tell, by wisangub_sign_ticks, or as a loss of power, by wisangub_sign_power_lost and
 * wisangub_sign_power_back. What stands behind the line `end` is for wisangub_sign_restore_objects. Answers as
 * wisangub_sign_new does, and STATE, with the line for which the text is refused in *line, counted from 1.
 */
WISANGUB_INLINE enum wisangub_answer wisangub_sign_restore(struct wisangub_sign *sign, const void *text,
                                                           size_t text_size, const void *state, size_t state_size,
                                                           uint32_t *first, size_t *line)
{
    if (sign == NULL || sign->at != NULL || text == NULL || state == NULL || first == NULL || line == NULL
        || !WISANGUB_OF_THIS_VERSION) {
        return WISANGUB_NULL;
    }
    return (enum wisangub_answer)wisangub_sign_restore_at((const uint8_t *)text, text_size, (const uint8_t *)state,
                                                          state_size, sign, first, line);
}

/*
 * Puts the values that managers set, as the text that wisangub_sign_save gave has them behind its line `end`, back to
 * the objects that are published by now: each that takes the value of its name reads it, as if a manager had set it
 * just now, so that wisangub_sign_taken gives it. Values of objects that are not published, or do not take them, are
 * left out. Answers DONE; STATE, where a line is none of these, with its number in *line, counted from 1 from the
 * beginning of the text, and nothing has changed; MEMORY, and nothing has changed; or NULL.
 */
WISANGUB_INLINE enum wisangub_answer wisangub_sign_restore_objects(struct wisangub_sign *sign, const void *state,
                                                                   size_t state_size, size_t *line)
{
    if (sign == NULL || sign->at == NULL || state == NULL || line == NULL) {
        return WISANGUB_NULL;
    }
    return (enum wisangub_answer)wisangub_sign_restore_objects_at(sign, (const uint8_t *)state, state_size, line);
}

/*
 * Hands a datagram to the sign and to the objects that are published beside it. Answers DONE, with the reply in `reply`
 * and its size in *reply_size; NOTHING, where the sign drops the datagram (*reply_size is 0); TOO_SMALL, where
 * reply_room is below WISANGUB_DATAGRAM: the sign has not heard the datagram, the buffer is as it was, and *reply_size
 * is WISANGUB_DATAGRAM; or NULL. No memory is taken.
 */
WISANGUB_INLINE enum wisangub_answer wisangub_sign_receive(struct wisangub_sign *sign, const void *datagram,
                                                           size_t datagram_size, void *reply, size_t reply_room,
                                                           size_t *reply_size)
{
    if (sign == NULL || sign->at == NULL || datagram == NULL || reply == NULL || reply_size == NULL) {
        return WISANGUB_NULL;
    }
    return (enum wisangub_answer)wisangub_sign_receive_at(sign, (const uint8_t *)datagram, datagram_size,
                                                          (uint8_t *)reply, reply_room, reply_size);
}

/* A second passes: call it once in each second, also while the power is off. Answers DONE or NULL. */
WISANGUB_INLINE enum wisangub_answer wisangub_sign_tick(struct wisangub_sign *sign)
{
    if (sign == NULL || sign->at == NULL) {
        return WISANGUB_NULL;
    }
    wisangub_sign_tick_at(sign);
    return WISANGUB_DONE;
}

/*
 * So many seconds pass: as many calls of wisangub_sign_tick, and as long as these take, so that a process that was
 * stopped for an hour tells it in one call. Answers DONE or NULL.
 */
WISANGUB_INLINE enum wisangub_answer wisangub_sign_ticks(struct wisangub_sign *sign, uint32_t seconds)
{
    if (sign == NULL || sign->at == NULL) {
        return WISANGUB_NULL;
    }
    for (uint32_t second = 0; second < seconds; second++) {
        wisangub_sign_tick_at(sign);
    }
    return WISANGUB_DONE;
}

/*
 * The power is lost; the sign drops every datagram until it is back. Without power nothing changes. Answers DONE or
 * NULL.
 */
WISANGUB_INLINE enum wisangub_answer wisangub_sign_power_lost(struct wisangub_sign *sign)
{
    if (sign == NULL || sign->at == NULL) {
        return WISANGUB_NULL;
    }
    wisangub_sign_power_lost_at(sign);
    return WISANGUB_DONE;
}

/* The power is back after so many seconds. With power nothing changes. Answers DONE or NULL. */
WISANGUB_INLINE enum wisangub_answer wisangub_sign_power_back(struct wisangub_sign *sign, uint32_t seconds)
{
    if (sign == NULL || sign->at == NULL) {
        return WISANGUB_NULL;
    }
    wisangub_sign_power_back_at(sign, seconds);
    return WISANGUB_DONE;
}

/*
 * The silence is over, as after a Get that was answered. It is for one who goes on from a journal, where Gets are
 * recorded by this alone (docs/JOURNAL.md). Answers DONE or NULL.
 */
WISANGUB_INLINE enum wisangub_answer wisangub_sign_heard(struct wisangub_sign *sign)
{
    if (sign == NULL || sign->at == NULL) {
        return WISANGUB_NULL;
    }
    wisangub_sign_heard_at(sign);
    return WISANGUB_DONE;
}

/* What the sign shows, but for its text. Answers DONE or NULL. */
WISANGUB_INLINE enum wisangub_answer wisangub_sign_shown(const struct wisangub_sign *sign, struct wisangub_shown *shown)
{
    if (sign == NULL || sign->at == NULL || shown == NULL) {
        return WISANGUB_NULL;
    }
    wisangub_sign_shown_at(sign, shown);
    return WISANGUB_DONE;
}

/*
 * How many pictures came in place of another one since the sign was made: 0 at first. It rises by one in each call
 * (of a tick, a datagram, a loss of power or its return) that leaves another text, other defaults under which it is
 * shown, other beacons or another pixel service than before, and in no other; wisangub_sign_ticks counts each of its
 * seconds. A driver draws where it has another value than when it drew last. Answers DONE or NULL.
 */
WISANGUB_INLINE enum wisangub_answer wisangub_sign_changes(const struct wisangub_sign *sign, uint64_t *changes)
{
    if (sign == NULL || sign->at == NULL || changes == NULL) {
        return WISANGUB_NULL;
    }
    wisangub_sign_changes_at(sign, changes);
    return WISANGUB_DONE;
}

/*
 * In how many tenths of a second the message ends by itself, counted from the last second that the sign was told, while
 * it has power. Answers DONE; NOTHING, where it has no end, and *tenths is as it was; or NULL.
 */
WISANGUB_INLINE enum wisangub_answer wisangub_sign_ends(const struct wisangub_sign *sign, uint64_t *tenths)
{
    if (sign == NULL || sign->at == NULL || tenths == NULL) {
        return WISANGUB_NULL;
    }
    return (enum wisangub_answer)wisangub_sign_ends_at(sign, tenths);
}

/*
 * How many pages there are of what the sign shows, and the times of the page of this number, from 0, without its cells.
 * Answers DONE; FAULT, where there is no such page, and *page is as it was; or NULL. No memory is taken.
 */
WISANGUB_INLINE enum wisangub_answer wisangub_sign_page_times(const struct wisangub_sign *sign, size_t number,
                                                              struct wisangub_page *page)
{
    if (sign == NULL || sign->at == NULL || page == NULL) {
        return WISANGUB_NULL;
    }
    return (enum wisangub_answer)wisangub_sign_page_times_at(sign, number, page);
}

/*
 * In how many tenths of a second what the sign shows changes by itself: by the next page, by the next turn of a flash
 * of a character of the page that is up, or by the end of the message. The picture has been up for `up` tenths, since
 * wisangub_sign_changes rose, and the last second was told `told` tenths ago. Pages take turns, and flashes turn, as
 * docs/PROFILE.md, "Pictures", says; a character without a lit cell is counted too. 0 is a message whose last second is
 * due. Answers DONE; NOTHING, where all stays as it is, and *tenths is as it was; or NULL. No memory is taken.
 */
WISANGUB_INLINE enum wisangub_answer wisangub_sign_due(const struct wisangub_sign *sign, uint64_t up, uint64_t told,
                                                       uint64_t *tenths)
{
    if (sign == NULL || sign->at == NULL || tenths == NULL) {
        return WISANGUB_NULL;
    }
    return (enum wisangub_answer)wisangub_sign_due_at(sign, up, told, tenths);
}

/* The columns, 1 to 256, and the rows, 1 to 64, of the sign's matrix. Answers DONE or NULL. */
WISANGUB_INLINE enum wisangub_answer wisangub_sign_matrix(const struct wisangub_sign *sign, uint16_t *width,
                                                          uint16_t *height)
{
    if (sign == NULL || sign->at == NULL || width == NULL || height == NULL) {
        return WISANGUB_NULL;
    }
    wisangub_sign_matrix_at(sign, width, height);
    return WISANGUB_DONE;
}

/* The MULTI text that the sign shows, at most 512 octets. Answers DONE, TOO_SMALL or NULL. */
WISANGUB_INLINE enum wisangub_answer wisangub_sign_text(const struct wisangub_sign *sign, void *text, size_t room,
                                                        size_t *size)
{
    uint8_t none = 0, *buffer = wisangub_buffer(text, room, &none);
    if (sign == NULL || sign->at == NULL || buffer == NULL || size == NULL) {
        return WISANGUB_NULL;
    }
    return (enum wisangub_answer)wisangub_sign_text_at(sign, buffer, room, size);
}

/* The community that may only read, 1 to 32 octets. Answers DONE, TOO_SMALL or NULL. */
WISANGUB_INLINE enum wisangub_answer wisangub_sign_reader(const struct wisangub_sign *sign, void *community,
                                                          size_t room, size_t *size)
{
    uint8_t none = 0, *buffer = wisangub_buffer(community, room, &none);
    if (sign == NULL || sign->at == NULL || buffer == NULL || size == NULL) {
        return WISANGUB_NULL;
    }
    return (enum wisangub_answer)wisangub_sign_reader_at(sign, buffer, room, size);
}

/* The community that may read and write, 1 to 32 octets. Answers DONE, TOO_SMALL or NULL. */
WISANGUB_INLINE enum wisangub_answer wisangub_sign_writer(const struct wisangub_sign *sign, void *community,
                                                          size_t room, size_t *size)
{
    uint8_t none = 0, *buffer = wisangub_buffer(community, room, &none);
    if (sign == NULL || sign->at == NULL || buffer == NULL || size == NULL) {
        return WISANGUB_NULL;
    }
    return (enum wisangub_answer)wisangub_sign_writer_at(sign, buffer, room, size);
}

/*
 * Whether a MULTI text can be shown on the sign under the defaults of its description. Answers DONE, with the number of
 * its pages, 1 to 6, in *pages; FAULT, with what is wrong in *fault; or NULL.
 */
WISANGUB_INLINE enum wisangub_answer wisangub_sign_check(const struct wisangub_sign *sign, const void *text,
                                                         size_t text_size, size_t *pages,
                                                         struct wisangub_text_fault *fault)
{
    if (sign == NULL || sign->at == NULL || text == NULL || pages == NULL || fault == NULL) {
        return WISANGUB_NULL;
    }
    return (enum wisangub_answer)wisangub_sign_check_at(sign, (const uint8_t *)text, text_size, pages, fault);
}

/*
 * Why wisangub_sign_check refuses a text: what is wrong, where, and what the sign lacks for it in *cause, and the same
 * in words, as `character not defined at octet 3: character 48 is not in font 2`, in `words`, of which there are *size.
 * Answers DONE; NOTHING, where the text can be shown, with *size 0; TOO_SMALL, and *cause is as it was; MEMORY; or NULL.
 */
WISANGUB_INLINE enum wisangub_answer wisangub_sign_text_cause(const struct wisangub_sign *sign, const void *text,
                                                              size_t text_size, struct wisangub_text_cause *cause,
                                                              void *words, size_t room, size_t *size)
{
    uint8_t none = 0, *buffer = wisangub_buffer(words, room, &none);
    if (sign == NULL || sign->at == NULL || text == NULL || cause == NULL || buffer == NULL || size == NULL) {
        return WISANGUB_NULL;
    }
    return (enum wisangub_answer)wisangub_sign_text_cause_at(sign, (const uint8_t *)text, text_size, cause, buffer,
                                                             room, size);
}

/*
 * The pages of what the sign shows, one after the other: of each its head of WISANGUB_PAGE_HEAD octets, and then an
 * octet for each cell, row by row from the top, each row from the left; `layer` says what of a cell. So a page has
 * 3 + width * height octets. Answers DONE; RANGE, where the layer is none; TOO_SMALL; MEMORY; or NULL.
 */
WISANGUB_INLINE enum wisangub_answer wisangub_sign_pages(const struct wisangub_sign *sign, enum wisangub_layer layer,
                                                         void *pages, size_t room, size_t *size)
{
    uint8_t none = 0, *buffer = wisangub_buffer(pages, room, &none);
    if (sign == NULL || sign->at == NULL || buffer == NULL || size == NULL) {
        return WISANGUB_NULL;
    }
    return (enum wisangub_answer)wisangub_sign_pages_at(sign, wisangub_octet((unsigned)layer), buffer, room, size);
}

/*
 * A row of a page of what the sign shows, both counted from 0: the octets of its cells from the left, as
 * wisangub_sign_pages gives them, one for each column. Answers DONE; RANGE, where the layer is none; FAULT, where there
 * is no such page or the matrix has no such row, and *size is as it was; TOO_SMALL; or NULL. No memory is taken: the
 * page is laid out on the stack, of which this call takes some 94 KB.
 */
WISANGUB_INLINE enum wisangub_answer wisangub_sign_page_row(const struct wisangub_sign *sign, size_t number, uint16_t y,
                                                            enum wisangub_layer layer, void *cells, size_t room,
                                                            size_t *size)
{
    uint8_t none = 0, *buffer = wisangub_buffer(cells, room, &none);
    if (sign == NULL || sign->at == NULL || buffer == NULL || size == NULL) {
        return WISANGUB_NULL;
    }
    return (enum wisangub_answer)wisangub_sign_page_row_at(sign, number, y, wisangub_octet((unsigned)layer), buffer,
                                                           room, size);
}

/*
 * The pages of a MULTI text on the sign under the defaults of its description, as wisangub_sign_pages gives them.
 * Answers DONE; RANGE, where the layer is none; FAULT, with what is wrong with the text in *fault; TOO_SMALL; MEMORY; or
 * NULL.
 */
WISANGUB_INLINE enum wisangub_answer wisangub_sign_text_pages(const struct wisangub_sign *sign, const void *text,
                                                              size_t text_size, enum wisangub_layer layer, void *pages,
                                                              size_t room, size_t *size,
                                                              struct wisangub_text_fault *fault)
{
    uint8_t none = 0, *buffer = wisangub_buffer(pages, room, &none);
    if (sign == NULL || sign->at == NULL || text == NULL || buffer == NULL || size == NULL || fault == NULL) {
        return WISANGUB_NULL;
    }
    return (enum wisangub_answer)wisangub_sign_text_pages_at(sign, (const uint8_t *)text, text_size,
                                                             wisangub_octet((unsigned)layer), buffer, room, size,
                                                             fault);
}

/*
 * From now on the sign's managers can Get the objects of its fonts and walk over them, as fontTable (docs/PROFILE.md,
 * "Fonts that can be read"); nobody can Set them, and they take no memory. Call it before the first object is
 * published. Answers DONE, also where they can be read already; FAULT, where an object is published; or NULL.
 */
WISANGUB_INLINE enum wisangub_answer wisangub_sign_show_fonts(struct wisangub_sign *sign)
{
    if (sign == NULL || sign->at == NULL) {
        return WISANGUB_NULL;
    }
    return (enum wisangub_answer)wisangub_sign_show_fonts_at(sign);
}

/*
 * Publishes an object beside the sign's: from now on the sign's managers Get it, walk over it, and Set it where
 * `access` says so. It stands in place of the one that has its name: what a manager set there is gone then. `octets`
 * are those of a value that has them, and of another they are not read. All that is given is copied, and for as many
 * octets as a manager may write there is room from then on. Answers DONE; FAULT, where the name's octets are none's, or
 * the sign or its fonts that can be read have an object of this name; else RANGE, where the type or the access is none
 * of those that there are, or the value is none of its type, or not one that the access takes; else MEMORY, where there
 * is none; or NULL.
 */
WISANGUB_INLINE enum wisangub_answer wisangub_sign_publish(struct wisangub_sign *sign, const void *name,
                                                           size_t name_size, const struct wisangub_value *value,
                                                           const void *octets, size_t octets_size,
                                                           const struct wisangub_access *access)
{
    const uint8_t none = 0, *given = octets == NULL && octets_size == 0 ? &none : (const uint8_t *)octets;
    if (sign == NULL || sign->at == NULL || name == NULL || value == NULL || given == NULL || access == NULL) {
        return WISANGUB_NULL;
    }
    return (enum wisangub_answer)wisangub_sign_publish_at(sign, (const uint8_t *)name, name_size, value, given,
                                                          octets_size, access);
}

/*
 * Withdraws an object that is published, and gives its memory back. Answers DONE; FAULT, where none of this name is
 * published; or NULL.
 */
WISANGUB_INLINE enum wisangub_answer wisangub_sign_withdraw(struct wisangub_sign *sign, const void *name,
                                                            size_t name_size)
{
    if (sign == NULL || sign->at == NULL || name == NULL) {
        return WISANGUB_NULL;
    }
    return (enum wisangub_answer)wisangub_sign_withdraw_at(sign, (const uint8_t *)name, name_size);
}

/*
 * What a Get of a name reads, of the sign's objects, its fonts' and those that are published: the value in *value,
 * and its octets in `octets`, of which there are *size, 0 of a type that has none. Answers DONE; FAULT, where nothing of this
 * name is there; TOO_SMALL, and *value is as it was; or NULL. No memory is taken, and no silence ends.
 */
WISANGUB_INLINE enum wisangub_answer wisangub_sign_object(const struct wisangub_sign *sign, const void *name,
                                                          size_t name_size, struct wisangub_value *value, void *octets,
                                                          size_t room, size_t *size)
{
    uint8_t none = 0, *buffer = wisangub_buffer(octets, room, &none);
    if (sign == NULL || sign->at == NULL || name == NULL || value == NULL || buffer == NULL || size == NULL) {
        return WISANGUB_NULL;
    }
    return (enum wisangub_answer)wisangub_sign_object_at(sign, (const uint8_t *)name, name_size, value, buffer, room,
                                                         size);
}

/*
 * What managers set: call it after each datagram until it answers NOTHING. Each object that was set is handed out once
 * for all that was set there meanwhile, in the order of names: its name, its value as it is now, and the value's
 * octets. What was published or withdrawn since it was set is not handed out. Answers DONE; NOTHING, where nothing is
 * left, with both sizes 0; TOO_SMALL, where the name or the octets have no room, with both sizes that are needed:
 * nothing is handed out; or NULL. A name takes at most WISANGUB_NAME octets, and a value that was set less than
 * WISANGUB_DATAGRAM. No memory is taken.
 */
WISANGUB_INLINE enum wisangub_answer wisangub_sign_taken(struct wisangub_sign *sign, void *name, size_t name_room,
                                                         size_t *name_size, struct wisangub_value *value, void *octets,
                                                         size_t room, size_t *size)
{
    uint8_t none[2] = {0, 0}, *names = wisangub_buffer(name, name_room, none);
    uint8_t *buffer = wisangub_buffer(octets, room, none + 1);
    if (sign == NULL || sign->at == NULL || names == NULL || name_size == NULL || value == NULL || buffer == NULL
        || size == NULL) {
        return WISANGUB_NULL;
    }
    return (enum wisangub_answer)wisangub_sign_taken_at(sign, names, name_room, name_size, value, buffer, room, size);
}

/*
 * Which of so many cells are lit, of their looks, for a driver of lamps: eight cells an octet from the left, the first
 * in the highest bit. Answers DONE, TOO_SMALL or NULL.
 */
WISANGUB_INLINE enum wisangub_answer wisangub_row_bits(const uint8_t *looks, size_t count, void *bits, size_t room,
                                                       size_t *size)
{
    uint8_t none = 0, *buffer = wisangub_buffer(bits, room, &none);
    if (looks == NULL || buffer == NULL || size == NULL || !WISANGUB_OF_THIS_VERSION) {
        return WISANGUB_NULL;
    }
    return (enum wisangub_answer)wisangub_row_bits_at(looks, count, buffer, room, size);
}

/*
 * Gives the checksum of a message (dmsMessageCRC) in *crc: of its text and its two bits, each 0 or 1. Answers DONE;
 * RANGE, where one of them is another number; or NULL.
 */
WISANGUB_INLINE enum wisangub_answer wisangub_crc(const void *text, size_t text_size, uint8_t beacon, uint8_t pixel,
                                                  uint16_t *crc)
{
    if (text == NULL || crc == NULL || !WISANGUB_OF_THIS_VERSION) {
        return WISANGUB_NULL;
    }
    return (enum wisangub_answer)wisangub_crc_at((const uint8_t *)text, text_size, beacon, pixel, crc);
}

/*
 * The five octets of a message's name (MessageIDCode). Answers DONE; RANGE, where the memory or the order is none of
 * those that there are; TOO_SMALL; or NULL.
 */
WISANGUB_INLINE enum wisangub_answer wisangub_message_code(enum wisangub_order order, const struct wisangub_code *parts,
                                                           void *code, size_t room, size_t *size)
{
    uint8_t none = 0, *buffer = wisangub_buffer(code, room, &none);
    if (parts == NULL || buffer == NULL || size == NULL || !WISANGUB_OF_THIS_VERSION) {
        return WISANGUB_NULL;
    }
    return (enum wisangub_answer)wisangub_message_code_at(wisangub_octet((unsigned)order), parts, buffer, room, size);
}

/* The twelve octets that activate a message (MessageActivationCode). Answers as wisangub_message_code does. */
WISANGUB_INLINE enum wisangub_answer wisangub_activation_code(enum wisangub_order order,
                                                              const struct wisangub_code *parts, void *code,
                                                              size_t room, size_t *size)
{
    uint8_t none = 0, *buffer = wisangub_buffer(code, room, &none);
    if (parts == NULL || buffer == NULL || size == NULL || !WISANGUB_OF_THIS_VERSION) {
        return WISANGUB_NULL;
    }
    return (enum wisangub_answer)wisangub_activation_code_at(wisangub_octet((unsigned)order), parts, buffer, room, size);
}

/* Gives the sign's memory back and sets `at` to null. A sign that is not made stays as it is. */
WISANGUB_INLINE void wisangub_sign_free(struct wisangub_sign *sign)
{
    if (sign != NULL && sign->at != NULL) {
        wisangub_sign_free_at(sign);
    }
}

/*
 * Makes a central system, which sends requests with this community of 1 to 32 octets; `first` is the number of the
 * first one. One that is made again must begin above all numbers that it ever used: the caller keeps them
 * (docs/JOURNAL.md). Answers DONE; RANGE, where the order is none; FAULT, where the community has another size; MEMORY;
 * or NULL, also where it is made already.
 */
WISANGUB_INLINE enum wisangub_answer wisangub_centre_new(struct wisangub_centre *centre, const void *community,
                                                         size_t community_size, enum wisangub_order order,
                                                         uint32_t first)
{
    if (centre == NULL || centre->at != NULL || community == NULL || !WISANGUB_OF_THIS_VERSION) {
        return WISANGUB_NULL;
    }
    return (enum wisangub_answer)wisangub_centre_new_at((const uint8_t *)community, community_size,
                                                        wisangub_octet((unsigned)order), first, centre);
}

/*
 * The state of a central system as text, from its line `state 1 centre` to `end`: the next number, how the last job
 * ended, the job that is on and the ledger, as the line `save` answers it (docs/PROFILE.md). Not in it are what it is
 * made with, its community and its order. Answers DONE, with the text in `state` and its size in *size; TOO_SMALL; or
 * NULL. No memory is taken.
 */
WISANGUB_INLINE enum wisangub_answer wisangub_centre_save(const struct wisangub_centre *centre, void *state,
                                                          size_t room, size_t *size)
{
    uint8_t none = 0, *buffer = wisangub_buffer(state, room, &none);
    if (centre == NULL || centre->at == NULL || buffer == NULL || size == NULL) {
        return WISANGUB_NULL;
    }
    return (enum wisangub_answer)wisangub_centre_save_at(centre, buffer, room, size);
}

/*
 * How many octets wisangub_centre_save gives of the central system as it is now: there is no most, since each code that
 * is sent adds a line. Answers DONE or NULL. No memory is taken.
 */
WISANGUB_INLINE enum wisangub_answer wisangub_centre_save_size(const struct wisangub_centre *centre, size_t *size)
{
    if (centre == NULL || centre->at == NULL || size == NULL) {
        return WISANGUB_NULL;
    }
    wisangub_centre_save_size_at(centre, size);
    return WISANGUB_DONE;
}

/*
 * Makes a central system, as wisangub_centre_new does, in the state of a text that wisangub_centre_save gave of one
 * with this community and this order: each call answers afterwards what it would have answered there. Keep its state
 * before a request is sent: of an older state the numbers of requests would be used twice. Answers as
 * wisangub_centre_new does, and STATE, with the line for which the text is refused in *line, counted from 1.
 */
WISANGUB_INLINE enum wisangub_answer wisangub_centre_restore(struct wisangub_centre *centre, const void *community,
                                                             size_t community_size, enum wisangub_order order,
                                                             const void *state, size_t state_size, size_t *line)
{
    if (centre == NULL || centre->at != NULL || community == NULL || state == NULL || line == NULL
        || !WISANGUB_OF_THIS_VERSION) {
        return WISANGUB_NULL;
    }
    return (enum wisangub_answer)wisangub_centre_restore_at((const uint8_t *)community, community_size,
                                                            wisangub_octet((unsigned)order), (const uint8_t *)state,
                                                            state_size, centre, line);
}

/*
 * Gives the central system the command that a line spells, without its newline: `publish ..`, `blank ..` or
 * `activate ..`, as in a script (docs/PROFILE.md). Answers DONE, with the request that is to be sent to the sign in
 * `request` and its size in *request_size; FAULT, where the line spells no command; BUSY, USED_UP or RANGE, where it is
 * not taken; TOO_SMALL, where request_room is below WISANGUB_DATAGRAM; MEMORY, which an entry of the ledger takes; or
 * NULL. In all but DONE the central system is as before.
 */
WISANGUB_INLINE enum wisangub_answer wisangub_centre_command(struct wisangub_centre *centre, const void *line,
                                                             size_t line_size, void *request, size_t request_room,
                                                             size_t *request_size)
{
    if (centre == NULL || centre->at == NULL || line == NULL || request == NULL || request_size == NULL) {
        return WISANGUB_NULL;
    }
    return (enum wisangub_answer)wisangub_centre_command_at(centre, (const uint8_t *)line, line_size,
                                                            (uint8_t *)request, request_room, request_size);
}

/*
 * Why wisangub_centre_command answers FAULT to a line: in numbers in *cause, and in words, as `word 4: a text in
 * hexadecimal is wanted`, in `words`, of which there are *size. Answers DONE; NOTHING, where the line spells a command,
 * with *size 0; TOO_SMALL, and *cause is as it was; MEMORY; or NULL.
 */
WISANGUB_INLINE enum wisangub_answer wisangub_command_cause(const void *line, size_t line_size,
                                                            struct wisangub_cause *cause, void *words, size_t room,
                                                            size_t *size)
{
    uint8_t none = 0, *buffer = wisangub_buffer(words, room, &none);
    if (line == NULL || cause == NULL || buffer == NULL || size == NULL || !WISANGUB_OF_THIS_VERSION) {
        return WISANGUB_NULL;
    }
    return (enum wisangub_answer)wisangub_command_cause_at((const uint8_t *)line, line_size, cause, buffer, room, size);
}

/*
 * Hands the central system a datagram. Answers DONE, with the request that it sends next; NOTHING, where it sends none;
 * TOO_SMALL, where request_room is below WISANGUB_DATAGRAM: it has not heard the datagram; or NULL. No memory is taken.
 */
WISANGUB_INLINE enum wisangub_answer wisangub_centre_receive(struct wisangub_centre *centre, const void *datagram,
                                                             size_t datagram_size, void *request, size_t request_room,
                                                             size_t *request_size)
{
    if (centre == NULL || centre->at == NULL || datagram == NULL || request == NULL || request_size == NULL) {
        return WISANGUB_NULL;
    }
    return (enum wisangub_answer)wisangub_centre_receive_at(centre, (const uint8_t *)datagram, datagram_size,
                                                            (uint8_t *)request, request_room, request_size);
}

/*
 * A tick of the central system's clock: call it once in each second. Answers DONE, with what it sends (again); NOTHING;
 * TOO_SMALL, as above; MEMORY, which an entry of the ledger takes: nothing has changed, and the next tick tries again;
 * or NULL.
 */
WISANGUB_INLINE enum wisangub_answer wisangub_centre_tick(struct wisangub_centre *centre, void *request,
                                                          size_t request_room, size_t *request_size)
{
    if (centre == NULL || centre->at == NULL || request == NULL || request_size == NULL) {
        return WISANGUB_NULL;
    }
    return (enum wisangub_answer)wisangub_centre_tick_at(centre, (uint8_t *)request, request_room, request_size);
}

/* Starts again, as after a loss of power: the next number and the ledger stay, and a job ends. Answers DONE or NULL. */
WISANGUB_INLINE enum wisangub_answer wisangub_centre_restart(struct wisangub_centre *centre)
{
    if (centre == NULL || centre->at == NULL) {
        return WISANGUB_NULL;
    }
    wisangub_centre_restart_at(centre);
    return WISANGUB_DONE;
}

/* How the central system stands. Answers DONE or NULL. */
WISANGUB_INLINE enum wisangub_answer wisangub_centre_status(const struct wisangub_centre *centre,
                                                            struct wisangub_status *status)
{
    if (centre == NULL || centre->at == NULL || status == NULL) {
        return WISANGUB_NULL;
    }
    wisangub_centre_status_at(centre, status);
    return WISANGUB_DONE;
}

/*
 * The entry of this index, from 0, of the ledger: the codes that were sent. Answers DONE, FAULT where there is none, or
 * NULL.
 */
WISANGUB_INLINE enum wisangub_answer wisangub_centre_entry(const struct wisangub_centre *centre, size_t index,
                                                           struct wisangub_entry *entry)
{
    if (centre == NULL || centre->at == NULL || entry == NULL) {
        return WISANGUB_NULL;
    }
    return (enum wisangub_answer)wisangub_centre_entry_at(centre, index, entry);
}

/* Gives the central system's memory back and sets `at` to null. */
WISANGUB_INLINE void wisangub_centre_free(struct wisangub_centre *centre)
{
    if (centre != NULL && centre->at != NULL) {
        wisangub_centre_free_at(centre);
    }
}

#ifdef __cplusplus
}
#endif

#endif
