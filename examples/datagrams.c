#include "datagrams.h"

#include <string.h>

enum {
    INTEGER = 0x02,
    OCTETS = 0x04,
    NONE = 0x05,
    NAME = 0x06,
    SEQUENCE = 0x30,
    ADDRESS = 0x40,
    COUNTER = 0x41,
    GAUGE = 0x42,
    TICKS = 0x43,
    OPAQUE = 0x44,
    GET = 0xA0,
    GET_NEXT = 0xA1,
    RESPONSE = 0xA2,
    SET = 0xA3
};
enum { LENGTH_MOST = 4, INTEGER_MOST = 5, NUMBERS_MOST = 127 };

/* What is left of an element. */
struct part {
    const uint8_t *at, *end;
};

static size_t left(const struct part *part) { return (size_t)(part->end - part->at); }

/* Whether an element's length stands there, of one octet or more, and its content is whole; it is taken then. */
static int takes_length(struct part *part, size_t *length)
{
    if (left(part) == 0) {
        return 0;
    }
    size_t digits = *part->at++;
    *length = digits;
    if (digits >= 128) {
        digits -= 128;
        if (digits == 0 || digits > LENGTH_MOST || digits > left(part)) {
            return 0;
        }
        for (*length = 0; digits > 0; digits--) {
            *length = *length << 8 | *part->at++;
        }
    }
    return *length <= left(part);
}

/* Whether an element with this tag stands there, which is taken then. */
static int takes(struct part *part, uint8_t tag, struct part *content)
{
    size_t length = 0;
    if (left(part) == 0 || *part->at != tag) {
        return 0;
    }
    part->at++;
    if (!takes_length(part, &length) || (tag == NONE && length != 0) || (tag == ADDRESS && length != 4)) {
        return 0;
    }
    *content = (struct part){part->at, part->at + length};
    part->at += length;
    return 1;
}

/* Whether an integer's content is one, from -2^31 or from 0 up to 2^32 - 1. */
static int is_integer(const struct part *content, int is_signed)
{
    size_t size = left(content);
    const uint8_t *octets = content->at;
    if (size == 0 || size > INTEGER_MOST || (size == INTEGER_MOST && octets[0] != 0)) {
        return 0;
    }
    if (size > 1 && ((octets[0] == 0 && octets[1] < 128) || (octets[0] == 255 && octets[1] >= 128))) {
        return 0;
    }
    return is_signed || octets[0] < 128;
}

/* Whether a name's content is one: 1 to 127 numbers below 2^32, in digits of base 128. */
static int is_name(const struct part *content)
{
    uint64_t number = 0;
    size_t numbers = 0;
    int is_begun = 0;
    for (const uint8_t *at = content->at; at < content->end; at++) {
        number = number << 7 | (*at & 127);
        if ((!is_begun && *at == 128) || number > UINT32_MAX) {
            return 0;
        }
        is_begun = *at >= 128;
        if (!is_begun) {
            numbers++;
            number = 0;
        }
    }
    return !is_begun && numbers >= 1 && numbers <= NUMBERS_MOST;
}

static int takes_integer(struct part *part)
{
    struct part content;
    return takes(part, INTEGER, &content) && is_integer(&content, 1);
}

/* Whether a binding's value stands there, which is taken then. */
static int takes_value(struct part *part)
{
    struct part content;
    uint8_t tag = left(part) > 0 ? *part->at : 0;
    if (tag == INTEGER) {
        return takes_integer(part);
    }
    if (tag == COUNTER || tag == GAUGE || tag == TICKS) {
        return takes(part, tag, &content) && is_integer(&content, 0);
    }
    if (tag == NAME) {
        return takes(part, tag, &content) && is_name(&content);
    }
    return (tag == OCTETS || tag == NONE || tag == ADDRESS || tag == OPAQUE) && takes(part, tag, &content);
}

static int are_bindings(struct part *list)
{
    while (left(list) > 0) {
        struct part binding, name;
        if (!takes(list, SEQUENCE, &binding) || !takes(&binding, NAME, &name) || !is_name(&name)
            || !takes_value(&binding) || left(&binding) > 0) {
            return 0;
        }
    }
    return 1;
}

/* Whether the content of a PDU is one. */
static int is_pdu(struct part *pdu)
{
    struct part list;
    for (int numbers = 0; numbers < 3; numbers++) {
        if (!takes_integer(pdu)) {
            return 0;
        }
    }
    return takes(pdu, SEQUENCE, &list) && left(pdu) == 0 && are_bindings(&list);
}

static int is_version(const struct part *version) { return left(version) == 1 && *version->at == 0; }

static int is_community(const struct part *found, const uint8_t *community, size_t size)
{
    return left(found) == size && memcmp(found->at, community, size) == 0;
}

enum datagram_kind datagram_kind(const uint8_t *octets, size_t size, const struct communities *communities)
{
    struct part datagram = {octets, octets + size}, message, version, community, pdu;
    if (size > DATAGRAM_MOST || !takes(&datagram, SEQUENCE, &message) || left(&datagram) > 0
        || !takes(&message, INTEGER, &version) || !is_version(&version) || !takes(&message, OCTETS, &community)) {
        return DATAGRAM_UNHEARD;
    }
    uint8_t tag = left(&message) > 0 ? *message.at : 0;
    if ((tag != GET && tag != GET_NEXT && tag != SET) || !takes(&message, tag, &pdu) || left(&message) > 0
        || !is_pdu(&pdu)) {
        return DATAGRAM_UNHEARD;
    }
    if (is_community(&community, communities->writer, communities->writer_size)) {
        return tag == SET ? DATAGRAM_SETS : DATAGRAM_ASKS;
    }
    return is_community(&community, communities->reader, communities->reader_size) ? DATAGRAM_ASKS : DATAGRAM_UNHEARD;
}

/* The list of bindings of a Response without an error. */
static int is_success(const uint8_t *reply, size_t size, struct part *list)
{
    struct part datagram = {reply, reply + size}, message, content, pdu, status;
    return takes(&datagram, SEQUENCE, &message) && takes(&message, INTEGER, &content)
           && takes(&message, OCTETS, &content) && takes(&message, RESPONSE, &pdu) && takes(&pdu, INTEGER, &content)
           && takes(&pdu, INTEGER, &status) && left(&status) == 1 && *status.at == 0 && takes(&pdu, INTEGER, &content)
           && takes(&pdu, SEQUENCE, list);
}

const uint8_t *datagram_activated(const uint8_t *reply, size_t size)
{
    static const uint8_t activate[] = {0x2B, 6, 1, 4, 1, 0x89, 0x36, 4, 2, 3, 6, 3, 0}; /* dmsActivateMessage.0 */
    struct part list, binding, name, value;
    if (!is_success(reply, size, &list)) {
        return NULL;
    }
    while (takes(&list, SEQUENCE, &binding) && takes(&binding, NAME, &name)) {
        if (left(&name) == sizeof activate && memcmp(name.at, activate, sizeof activate) == 0
            && takes(&binding, OCTETS, &value) && left(&value) == CODE_SIZE) {
            return value.at;
        }
    }
    return NULL;
}

size_t datagram_line(char *line, const uint8_t *octets, size_t size)
{
    static const char digits[] = "0123456789abcdef", word[] = "datagram ";
    char *at = line + sizeof word - 1;
    memcpy(line, word, sizeof word - 1);
    for (size_t octet = 0; octet < size; octet++) {
        *at++ = digits[octets[octet] >> 4];
        *at++ = digits[octets[octet] & 15];
    }
    if (size == 0) {
        *at++ = '-';
    }
    *at++ = '\n';
    return (size_t)(at - line);
}
