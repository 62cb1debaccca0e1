/* The server's call in C, written by hand for speed: what the proved one is measured against. It makes the same checks in every
 * call and does the same to the same memory; tuned_test.c holds the two together.
 *
 * How it is made quick: tables and link record are read by words of eight bytes against masks; the order of the IDs, the unused
 * bytes and the checksums are tested without a jump that could be mispredicted; answers are built where they have to be held, in the
 * outstanding frame's memory, in one pass, and copied out once; a search has no jump on IDs, and each entry is looked up once. */
#include <stdbool.h>
#include <string.h>

#include "tuned.h"
#include "tuned_table.h"

typedef struct tagobrelin_item item;
typedef struct tagobrelin_link link_record;

enum {
    MESSAGE = 5,                 /* where a message begins in its frame */
    ENTRIES = MESSAGE + 6,       /* where an answer's entries begin */
    MESSAGE_END = MESSAGE + 254, /* where the longest message ends */
    FRAME_HEAD = 0x68000068      /* 68 L L 68 with L still 0, as a word */
};

static inline uint32_t two_bytes(const uint8_t *at)
{
    return (uint32_t)at[0] << 8 | at[1];
}

static inline void put_two_bytes(uint8_t *at, uint32_t n)
{
    at[0] = (uint8_t)(n >> 8);
    at[1] = (uint8_t)n;
}

/* ---- the tables */

/* by type code: a value's bytes, and the bits of its first byte that have to be 0 */
static const uint8_t size_of[15] = {1, 1, 1, 1, 1, 1, 1, 1, 2, 3, 4, 6, 8, 10, 14};
static const uint8_t first_byte_unused[15] = {0xfe, 0xfc, 0xf8, 0xf0, 0xe0, 0xc0, 0x80};

/* by size: the bits of 16 bytes that have to be 0; a size beyond has an entry too, since it is judged later than looked up */
static const uint64_t item_low[256] = {~0ull, ~0ull << 8, ~0ull << 16, ~0ull << 24, ~0ull << 32, ~0ull << 40, ~0ull << 48, ~0ull << 56};
static const uint64_t item_high[256] = {~0ull, ~0ull, ~0ull, ~0ull, ~0ull, ~0ull, ~0ull, ~0ull, ~0ull, ~0ull << 8, ~0ull << 16, ~0ull << 24,
                                       ~0ull << 32, ~0ull << 40, ~0ull << 48, ~0ull << 56, 0};

/* size and writable as one number, less 1: at most bits 8 and 3 to 0 where the size is 1 to 16 and writable 0 or 1 */
#define LOOK_AT_ITEM(i)                                                                                  \
    do {                                                                                                 \
        uint32_t size = (i)->size, id = (i)->id;                                                         \
        sizes |= two_bytes_as_they_lie(&(i)->size) - 1;                                                  \
        bad |= (word((i)->bytes) & item_low[size]) | (word((i)->bytes + 8) & item_high[size]);           \
        rises &= last - id;                                                                              \
        last = id;                                                                                       \
    } while (0)

static inline bool items_are_well_formed(const item *i, size_t n)
{
    uint32_t last = 0, rises = 1u << 31, sizes = 0;
    uint64_t bad = 0;
    if (RARELY(n > 64))
        return false;
    for (; n >= 4; n -= 4, i += 4) {
        LOOK_AT_ITEM(i);
        LOOK_AT_ITEM(i + 1);
        LOOK_AT_ITEM(i + 2);
        LOOK_AT_ITEM(i + 3);
    }
    for (; n; n--, i++)
        LOOK_AT_ITEM(i);
    return bad == 0 && rises != 0 && (sizes & 0xfef0) == 0;
}

/* A list of texts: where an entry begins hangs on the length byte before it, so that these loads are a chain; the rest
 * is gathered beside it. The top bit of `lengths` is set where one is above 30, that of `rises` stays set while each ID
 * is above the one before it; the first may be 0. */
static inline bool texts_are_in_order(const uint8_t *list, size_t size)
{
    uint32_t last = ~0u, rises = 1u << 31, lengths = 0;
    ptrdiff_t left = (ptrdiff_t)size;
    while (left >= 3) {
        uint32_t length = list[2], id = two_bytes(list);
        rises &= last - id;
        last = id;
        lengths |= 30 - length;
        left -= 3 + (ptrdiff_t)length;
        if (RARELY(left < 0))
            return false;
        list += 3 + length;
    }
    return left == 0 && rises != 0 && lengths >> 31 == 0;
}

/* how many items have a lower ID */
static inline size_t item_place(const item *table, size_t n, uint32_t id)
{
    const item *at = table;
    if (RARELY(n == 0))
        return 0;
    while (n > 1) {
        size_t half = n / 2;
        at += at[half - 1].id < id ? half : 0;
        n -= half;
    }
    return (size_t)(at - table) + (at->id < id);
}

/* ---- the link record */

static inline bool is_zero(const uint8_t *at, size_t n)
{
    uint64_t any = 0;
    if (n >= 32) {
        const uint8_t *last = at + n - 32;
        for (; at < last; at += 32)
            any |= (word(at) | word(at + 8)) | (word(at + 16) | word(at + 24));
        return (any | word(last) | word(last + 8) | word(last + 16) | word(last + 24)) == 0;
    }
    if (n >= 8) {
        const uint8_t *last = at + n - 8;
        for (; at < last; at += 8)
            any |= word(at);
        return (any | word(last)) == 0;
    }
    for (; n; n--)
        any |= *at++;
    return any == 0;
}

/* the sum of n bytes, the carry beyond eight bits dropped: eight bytes at a time in lanes of sixteen bits, 255 bytes at most */
static inline uint8_t checksum(const uint8_t *at, size_t n)
{
    const uint64_t lanes = 0x00ff00ff00ff00ff;
    uint64_t sum = 0;
    for (; n >= 8; at += 8, n -= 8) {
        uint64_t w = word(at);
        sum += (w & lanes) + (w >> 8 & lanes);
    }
    for (; n; n--)
        sum += *at++;
    sum += sum >> 32;
    return (uint8_t)(sum + (sum >> 16));
}

/* a beginning, not the whole, of some sound frame */
static inline bool is_beginning(const uint8_t *g, size_t n)
{
    if (n == 0)
        return true;
    if (RARELY(g[0] == 0x10))
        return n < 3 || (n == 3 && g[1] == g[2]);
    if (RARELY(n < 4)) {
        if (g[0] != 0x68 || (n > 1 && g[1] == 0))
            return false;
        return n < 3 || g[1] == g[2];
    }
    size_t count = g[1];
    if (RARELY(half_word(g) != (FRAME_HEAD | count << 8 | count << 16) || count == 0))
        return false;
    if (n <= count + 4)
        return true;
    return n == count + 5 && g[n - 1] == checksum(g + 4, count);
}

static inline uint8_t server_control(uint8_t odd)
{
    return (uint8_t)(0xd3 | odd << 5);
}

static inline bool is_whole(const uint8_t *f, size_t n, uint8_t control)
{
    if (RARELY(n - 7 > 254))
        return false;
    size_t count = n - 6;
    if (RARELY(half_word(f) != (FRAME_HEAD | count << 8 | count << 16) || f[4] != control || f[n - 1] != 0x16))
        return false;
    return f[n - 2] == checksum(f + 4, count);
}

static inline bool link_is_in_range(const link_record *link)
{
    size_t n = link->received, held = link->held;
    if (RARELY(n > sizeof link->receiver) || RARELY(held > sizeof link->outstanding))
        return false;
    if (RARELY(half_word(&link->dropping) & 0x00fefefe)) /* dropping, expected or send is not 0 or 1 */
        return false;
    if (RARELY(!is_zero(link->receiver + n, sizeof link->receiver - n)))
        return false;
    if (RARELY(link->dropping ? n != 0 : !is_beginning(link->receiver, n)))
        return false;
    if (held == 0)
        return link->resends == 0 && is_zero(link->outstanding, sizeof link->outstanding);
    if (RARELY(link->resends > 3) || RARELY(!is_zero(link->outstanding + held, sizeof link->outstanding - held)))
        return false;
    return is_whole(link->outstanding, held, server_control(link->send));
}

static inline void empty_receiver(link_record *link)
{
    memset(link->receiver, 0, link->received);
    link->received = 0;
}

static inline void clear_outstanding(link_record *link)
{
    memset(link->outstanding, 0, link->held);
    link->held = 0;
    link->resends = 0;
}

/* The message that stands in the outstanding frame's memory, up to `end`, is framed there, held and copied out. */
static int32_t send(link_record *link, uint8_t *out, size_t end)
{
    uint8_t *f = link->outstanding;
    uint32_t head = (uint32_t)(FRAME_HEAD | (end - 4) << 8 | (end - 4) << 16);
    memcpy(f, &head, sizeof head);
    f[4] = server_control(link->send);
    f[end] = checksum(f + 4, end - 4);
    f[end + 1] = 0x16;
    link->held = (uint16_t)(end + 2);
    link->resends = 0;
    memcpy(out, f, end + 2);
    return (int32_t)(end + 2);
}

/* ---- the services: an answer is built in the outstanding frame's memory, which is 0; each returns where it ends */

static size_t put_coded(uint8_t *f, uint8_t sub, uint32_t id, uint8_t code)
{
    f[MESSAGE] = 0xf0;
    f[MESSAGE + 1] = sub | 0x80;
    put_two_bytes(f + MESSAGE + 2, id);
    f[MESSAGE + 4] = 0;
    f[MESSAGE + 5] = 0;
    f[MESSAGE + 6] = code;
    return MESSAGE + 7;
}

static inline void put_head(uint8_t *f, uint8_t sub, uint32_t start, uint32_t count)
{
    f[MESSAGE] = 0xf0;
    f[MESSAGE + 1] = sub;
    put_two_bytes(f + MESSAGE + 2, start);
    put_two_bytes(f + MESSAGE + 4, count);
}

/* what was built has to go: an error instead */
static size_t put_over(uint8_t *f, size_t end, uint8_t sub, uint32_t id)
{
    memset(f + ENTRIES, 0, end - ENTRIES);
    return put_coded(f, sub, id, 3);
}

/* One value entry. All 14 bytes of the value are stored, for those behind its size are 0 and so is the memory; not so near the end. */
static inline size_t put_value(uint8_t *f, size_t at, const datapoint *d, size_t size)
{
    put_two_bytes(f + at, d->id);
    f[at + 2] = d->state;
    f[at + 3] = (uint8_t)size;
    if (at + 18 <= MESSAGE_END + 2) {
        put_word(f + at + 4, word(d->value));
        put_word(f + at + 10, word(d->value + 6));
    } else
        memcpy(f + at + 4, d->value, size);
    return at + 4 + size;
}

static size_t get_values(datapoint *table, size_t n, const uint8_t *m, size_t m_size, uint8_t *f)
{
    uint32_t start = two_bytes(m + 2), number = two_bytes(m + 4), end_id = start + number, count = 0;
    if (m_size != 7)
        return put_coded(f, 5, start, 10);
    uint8_t filter = m[6];
    if (number == 0 || filter > 2)
        return put_coded(f, 5, start, 6);
    datapoint *from = table + datapoint_place(table, n, start), *end = table + n, *d = from;
    /* the bit that has to be set; none: bit 8 of what is looked at */
    uint32_t wanted = filter == 0 ? 0x100 : filter == 1 ? 0x10 : 0x08;
    size_t at = ENTRIES;
    for (; d != end && d->id < end_id; d++) {
        if (!((d->state | 0x100) & wanted))
            continue;
        size_t size = size_of[d->typecode];
        if (at + 4 + size > MESSAGE_END)
            return put_over(f, at, 5, d->id);
        at = put_value(f, at, d, size);
        count++;
    }
    if (count == 0)
        return put_coded(f, 5, start, 2);
    if (filter == 1)
        for (; from != d; from++)
            from->state &= (uint8_t)~(from->state >> 1 & 8);
    else
        for (; from != d; from++)
            from->state &= (uint8_t)~8;
    put_head(f, 0x85, start, count);
    return at;
}

static size_t get_descriptions(const datapoint *table, size_t n, const uint8_t *m, size_t m_size, uint8_t *f)
{
    uint32_t start = two_bytes(m + 2), number = two_bytes(m + 4), end_id = start + number;
    if (m_size != 6)
        return put_coded(f, 3, start, 10);
    if (number == 0)
        return put_coded(f, 3, start, 6);
    const datapoint *d = table + datapoint_place(table, n, start), *end = table + n;
    size_t at = ENTRIES;
    for (; d != end && d->id < end_id; d++, at += 5) {
        if (at + 5 > MESSAGE_END)
            return put_over(f, at, 3, d->id);
        put_two_bytes(f + at, d->id);
        f[at + 2] = d->typecode;
        f[at + 3] = d->flags;
        f[at + 4] = d->dpt;
    }
    if (at == ENTRIES)
        return put_coded(f, 3, start, 2);
    put_head(f, 0x83, start, (uint32_t)(at - ENTRIES) / 5);
    return at;
}

/* the two lists of texts */
struct texts {
    const uint8_t *site, *site_end, *defaults, *defaults_end;
};

/* The text of this ID, behind its length byte, where the list has one that is not empty; else null. The list is gone
 * through from `*at` on: asked for in rising ID, each entry is looked at once. */
static inline const uint8_t *text_of(const uint8_t **at, const uint8_t *end, uint32_t id)
{
    const uint8_t *entry = *at;
    while (entry != end && two_bytes(entry) < id)
        entry += 3 + entry[2];
    *at = entry;
    return entry != end && two_bytes(entry) == id && entry[2] ? entry + 2 : NULL;
}

/* 1 to 30 bytes, by stores that overlap */
static inline void copy_text(uint8_t *to, const uint8_t *from, size_t n)
{
    if (n >= 16) {
        memcpy(to, from, 16);
        memcpy(to + n - 16, from + n - 16, 16);
    } else if (n >= 8) {
        put_word(to, word(from));
        put_word(to + n - 8, word(from + n - 8));
    } else if (n >= 4) {
        memcpy(to, from, 4);
        memcpy(to + n - 4, from + n - 4, 4);
    } else {
        to[0] = from[0];
        to[n / 2] = from[n / 2];
        to[n - 1] = from[n - 1];
    }
}

static size_t get_strings(const datapoint *table, size_t n, const struct texts *texts, const uint8_t *m, size_t m_size,
                          uint8_t *f)
{
    uint32_t start = two_bytes(m + 2), number = two_bytes(m + 4), end_id = start + number, count = 0;
    if (m_size != 6)
        return put_coded(f, 4, start, 10);
    if (number == 0)
        return put_coded(f, 4, start, 6);
    const datapoint *d = table + datapoint_place(table, n, start), *end = table + n;
    const uint8_t *site = texts->site, *defaults = texts->defaults;
    size_t at = ENTRIES;
    for (; d != end && d->id < end_id; d++) {
        const uint8_t *text = text_of(&site, texts->site_end, d->id);
        if (!text)
            text = text_of(&defaults, texts->defaults_end, d->id);
        size_t size = text ? text[0] : 0;
        if (at + 2 + size > MESSAGE_END)
            return put_over(f, at, 4, d->id);
        /* the higher byte of the length is 0, as the memory is */
        if (size) {
            f[at + 1] = (uint8_t)size;
            copy_text(f + at + 2, text + 1, size);
        }
        at += 2 + size;
        count++;
    }
    if (count == 0)
        return put_coded(f, 4, start, 2);
    put_head(f, 0x84, start, count);
    return at;
}

static size_t get_items(const item *table, size_t n, const uint8_t *m, size_t m_size, uint8_t *f)
{
    uint32_t start = two_bytes(m + 2), number = two_bytes(m + 4), end_id = start + number, count = 0;
    if (m_size != 6)
        return put_coded(f, 1, start, 10);
    if (number == 0)
        return put_coded(f, 1, start, 6);
    const item *i = table + item_place(table, n, start), *end = table + n;
    size_t at = ENTRIES;
    for (; i != end && i->id < end_id; i++) {
        size_t size = i->size;
        if (at + 3 + size > MESSAGE_END)
            return put_over(f, at, 1, i->id);
        put_two_bytes(f + at, i->id);
        f[at + 2] = i->size;
        if (at + 19 <= MESSAGE_END + 2) {
            put_word(f + at + 3, word(i->bytes));
            put_word(f + at + 11, word(i->bytes + 8));
        } else
            memcpy(f + at + 3, i->bytes, size);
        at += 3 + size;
        count++;
    }
    if (count == 0)
        return put_coded(f, 1, start, 2);
    put_head(f, 0x81, start, count);
    return at;
}

static size_t get_parameters(const uint8_t *parameters, size_t n, const uint8_t *m, size_t m_size, uint8_t *f)
{
    uint32_t start = two_bytes(m + 2), number = two_bytes(m + 4);
    if (m_size != 6)
        return put_coded(f, 7, start, 10);
    if (number == 0)
        return put_coded(f, 7, start, 6);
    if (start == 0 || start > n)
        return put_coded(f, 7, start, 2);
    size_t count = n - (start - 1);
    if (number < count)
        count = number;
    if (count > 248)
        return put_coded(f, 7, start + 248, 3);
    memcpy(f + ENTRIES, parameters + start - 1, count);
    put_head(f, 0x87, start, (uint32_t)count);
    return ENTRIES + count;
}

/* by command: what is set in the state */
static const uint8_t state_set[5] = {0, 0x10, 0x03, 0x13, 0x04};

/* by command: the config flags that it needs; one above 4 needs a bit that no flags have */
static const uint16_t flags_needed[256] = {0, 0, 0x44, 0x44, 0x04, [5 ... 255] = 0x100};

static size_t set_datapoints(datapoint *table, size_t n, const uint8_t *m, size_t m_size, uint8_t *f)
{
    struct {
        datapoint *d;
        const uint8_t *entry;
    } found[62];
    uint32_t start = two_bytes(m + 2), number = two_bytes(m + 4), bad_id = 0;
    uint8_t code = 0;
    size_t at = 6;
    for (uint32_t i = 0; i < number; i++) {
        const uint8_t *entry = m + at;
        if (RARELY(m_size - at < 4) || RARELY(m_size - at - 4 < entry[3]))
            return put_coded(f, 6, start, 10);
        size_t size = entry[3];
        at += 4 + size;
        if (RARELY(code))
            continue;
        uint32_t id = two_bytes(entry), command = entry[2];
        size_t place = datapoint_place(table, n, id);
        if (RARELY(place == n) || RARELY(table[place].id != id))
            code = 7;
        else if (RARELY(flags_needed[command] & ~table[place].flags))
            code = 8;
        else if (size == 0)
            code = command == 1 || command == 3 ? 9 : 0;
        else if (RARELY(size != size_of[table[place].typecode]))
            code = 9;
        else if (RARELY(entry[4] & first_byte_unused[table[place].typecode]))
            code = 8;
        bad_id = id;
        found[i].d = table + place;
        found[i].entry = entry;
    }
    if (at != m_size)
        return put_coded(f, 6, start, 10);
    if (number == 0)
        return put_coded(f, 6, start, 6);
    if (code)
        return put_coded(f, 6, bad_id, code);
    for (uint32_t i = 0; i < number; i++) {
        datapoint *d = found[i].d;
        const uint8_t *entry = found[i].entry;
        uint32_t command = entry[2];
        d->state |= state_set[command];
        /* the bytes behind the entry are those of the link record: read, and masked away */
        if (command == 1 || command == 3) {
            put_word(d->value, word(entry + 4) & ~item_low[entry[3]]);
            if (entry[3] > 8)
                put_word(d->value + 6, (word(entry + 4) & ~item_low[entry[3]]) >> 48 | (word(entry + 12) & ~item_high[entry[3]]) << 16);
        }
    }
    return put_coded(f, 6, start, 0);
}

static size_t set_items(item *table, size_t n, const uint8_t *m, size_t m_size, uint8_t *f)
{
    uint8_t place_of[82];
    uint32_t start = two_bytes(m + 2), number = two_bytes(m + 4), bad_id = 0;
    uint8_t code = 0;
    size_t at = 6;
    for (uint32_t i = 0; i < number; i++) {
        const uint8_t *entry = m + at;
        if (RARELY(m_size - at < 3) || RARELY(m_size - at - 3 < entry[2]))
            return put_coded(f, 2, start, 10);
        size_t size = entry[2];
        at += 3 + size;
        if (RARELY(code))
            continue;
        uint32_t id = two_bytes(entry);
        size_t place = item_place(table, n, id);
        if (RARELY(place == n) || RARELY(table[place].id != id))
            code = 7;
        else if (RARELY(!table[place].writable))
            code = 4;
        else if (RARELY(table[place].size != size))
            code = 9;
        bad_id = id;
        place_of[i] = (uint8_t)place;
    }
    if (at != m_size)
        return put_coded(f, 2, start, 10);
    if (number == 0)
        return put_coded(f, 2, start, 6);
    if (code)
        return put_coded(f, 2, bad_id, code);
    const uint8_t *entry = m + 6;
    for (uint32_t i = 0; i < number; i++, entry += 3 + entry[2])
        memcpy(table[place_of[i]].bytes, entry + 3, entry[2]);
    return put_coded(f, 2, start, 0);
}

static size_t set_parameters(uint8_t *parameters, size_t n, const uint8_t *m, size_t m_size, uint8_t *f)
{
    uint32_t start = two_bytes(m + 2), number = two_bytes(m + 4);
    if (m_size != 6 + number)
        return put_coded(f, 8, start, 10);
    if (number == 0)
        return put_coded(f, 8, start, 6);
    if (start == 0 || start > n)
        return put_coded(f, 8, start, 7);
    if (number > n - (start - 1))
        return put_coded(f, 8, (uint32_t)n + 1, 7);
    memcpy(parameters + start - 1, m + 6, number);
    return put_coded(f, 8, start, 0);
}

/* the message carried out: where its answer ends, 0 where there is none */
static size_t carry_out(datapoint *datapoints, size_t datapoint_count, item *items, size_t item_count, uint8_t *parameters,
                        size_t parameter_count, const struct texts *texts, const uint8_t *m, size_t m_size, uint8_t *f)
{
    if (m_size < 6 || m[0] != 0xf0 || m[1] >= 0x80)
        return 0;
    switch (m[1]) {
    case 1:
        return get_items(items, item_count, m, m_size, f);
    case 2:
        return set_items(items, item_count, m, m_size, f);
    case 3:
        return get_descriptions(datapoints, datapoint_count, m, m_size, f);
    case 4:
        return get_strings(datapoints, datapoint_count, texts, m, m_size, f);
    case 5:
        return get_values(datapoints, datapoint_count, m, m_size, f);
    case 6:
        return set_datapoints(datapoints, datapoint_count, m, m_size, f);
    case 7:
        return get_parameters(parameters, parameter_count, m, m_size, f);
    case 8:
        return set_parameters(parameters, parameter_count, m, m_size, f);
    default:
        return put_coded(f, m[1], two_bytes(m + 2), 5);
    }
}

/* ---- the events */

static int32_t damaged(link_record *link)
{
    empty_receiver(link);
    link->dropping = 1;
    return 0;
}

/* a byte behind a frame's beginning that is not simply gathered, or at its start */
static int32_t on_edge_byte(uint8_t byte, datapoint *datapoints, size_t datapoint_count, item *items, size_t item_count,
                            uint8_t *parameters, size_t parameter_count, const struct texts *texts, link_record *link,
                            uint8_t *out)
{
    uint8_t *g = link->receiver;
    size_t n = link->received;
    if (n == 0) {
        if (byte == 0xe5) {
            if (link->held) {
                clear_outstanding(link);
                link->send ^= 1;
            }
            return 0;
        }
        if (byte != 0x10 && byte != 0x68)
            return damaged(link);
    } else if (g[0] == 0x10) {
        if (n == 2 && byte != g[1])
            return damaged(link);
        if (n == 3) {
            if (byte != 0x16)
                return damaged(link);
            bool reset = g[1] == 0x40;
            empty_receiver(link);
            if (!reset)
                return 0;
            clear_outstanding(link);
            link->expected = link->send = 1;
            out[0] = 0xe5;
            return 1;
        }
    } else {
        size_t count = g[1];
        if (n < 4) {
            if (n == 1 ? byte == 0 : n == 2 ? byte != count : byte != 0x68)
                return damaged(link);
        } else if (n == count + 4) {
            if (byte != checksum(g + 4, count))
                return damaged(link);
        } else if (n == count + 5) {
            if (byte != 0x16)
                return damaged(link);
            uint8_t control = g[4], wanted = (uint8_t)(0x53 | link->expected << 5);
            if (control == wanted && link->held == 0) {
                size_t end = carry_out(datapoints, datapoint_count, items, item_count, parameters, parameter_count,
                                       texts, g + MESSAGE, count - 1, link->outstanding);
                link->expected ^= 1;
                empty_receiver(link);
                out[0] = 0xe5;
                return end ? 1 + send(link, out + 1, end) : 1;
            }
            empty_receiver(link);
            if (control != (wanted ^ 0x20))
                return 0;
            out[0] = 0xe5;
            return 1;
        }
    }
    g[n] = byte;
    link->received = (uint16_t)(n + 1);
    return 0;
}

static inline int32_t on_host_byte(uint8_t byte, datapoint *datapoints, size_t datapoint_count, item *items, size_t item_count,
                                   uint8_t *parameters, size_t parameter_count, const uint8_t *site, size_t site_size,
                                   const uint8_t *defaults, size_t defaults_size, link_record *link, uint8_t *out)
{
    size_t n = link->received;
    if (link->dropping)
        return 0;
    /* in the midst of a data frame: gathered */
    if (n >= 4 && n < link->receiver[1] + 4u) {
        link->receiver[n] = byte;
        link->received = (uint16_t)(n + 1);
        return 0;
    }
    struct texts texts = {site, site + site_size, defaults, defaults + defaults_size};
    return on_edge_byte(byte, datapoints, datapoint_count, items, item_count, parameters, parameter_count, &texts, link,
                        out);
}

static int32_t on_poll(datapoint *d, size_t n, link_record *link, uint8_t *out)
{
    datapoint *end = d + n;
    uint8_t *f = link->outstanding;
    uint32_t count = 0;
    size_t at = ENTRIES;
    if (link->held)
        return 0;
    while (d != end) {
        /* four without a mark at once */
        if (end - d >= 4 && !(d[0].mark | d[1].mark | d[2].mark | d[3].mark)) {
            d += 4;
            continue;
        }
        if (d->mark) {
            size_t size = size_of[d->typecode];
            if (at + 4 + size > MESSAGE_END)
                break;
            at = put_value(f, at, d, size);
            d->state &= (uint8_t)~8;
            d->mark = 0;
            count++;
        }
        d++;
    }
    if (count == 0)
        return 0;
    put_head(f, 0xc1, two_bytes(f + ENTRIES), count);
    return send(link, out, at);
}

static int32_t on_ack_wait_over(link_record *link, uint8_t *out)
{
    static const uint8_t reset[4] = {0x10, 0xc0, 0xc0, 0x16};
    if (link->held == 0)
        return 0;
    if (link->resends < 3) {
        link->resends++;
        memcpy(out, link->outstanding, link->held);
        return link->held;
    }
    clear_outstanding(link);
    link->send = 1;
    memcpy(out, reset, sizeof reset);
    return sizeof reset;
}

static int32_t on_bus_value(uint32_t id, const uint8_t *value, size_t value_count, datapoint *table, size_t n)
{
    size_t place = datapoint_place(table, n, id);
    if (place == n || table[place].id != id)
        return TAGOBRELIN_BAD_BUS_EVENT;
    datapoint *d = table + place;
    if (value_count != size_of[d->typecode] || value[0] & first_byte_unused[d->typecode])
        return TAGOBRELIN_BAD_BUS_EVENT;
    /* the bytes behind the value are 0 already */
    memcpy(d->value, value, value_count);
    d->state = (d->state & 0xe3) | 0x18;
    d->mark = 1;
    return 0;
}

static int32_t on_outcome(uint32_t id, uint8_t status, datapoint *table, size_t n)
{
    size_t place = datapoint_place(table, n, id);
    if (place == n || table[place].id != id)
        return TAGOBRELIN_BAD_BUS_EVENT;
    table[place].state = (table[place].state & 0xfc) | status;
    return 0;
}

int32_t tuned_call(uint8_t event, uint8_t byte, uint16_t id, uint8_t outcome, const uint8_t *value, size_t value_count,
                   datapoint *datapoints, size_t datapoint_count, item *items, size_t item_count, uint8_t *parameters,
                   size_t parameter_count, const uint8_t *site_texts, size_t site_texts_size,
                   const uint8_t *default_texts, size_t default_texts_size, link_record *link, uint8_t *out, size_t room)
{
    if (RARELY(event - 1u > 5) || RARELY(event == TAGOBRELIN_OUTCOME && outcome > 2))
        return TAGOBRELIN_NO_EVENT;
    if (RARELY(!datapoints_are_well_formed(datapoints, datapoint_count)) || RARELY(!items_are_well_formed(items, item_count)) || RARELY(parameter_count > 255))
        return TAGOBRELIN_BAD_TABLE;
    if (RARELY(!texts_are_in_order(site_texts, site_texts_size)) ||
        RARELY(!texts_are_in_order(default_texts, default_texts_size)))
        return TAGOBRELIN_BAD_TABLE;
    if (RARELY(!link_is_in_range(link)))
        return TAGOBRELIN_BAD_LINK;
    if (RARELY(room < TAGOBRELIN_ROOM))
        return TAGOBRELIN_NO_ROOM;
    switch (event) {
    case TAGOBRELIN_HOST_BYTE:
        return on_host_byte(byte, datapoints, datapoint_count, items, item_count, parameters, parameter_count, site_texts,
                            site_texts_size, default_texts, default_texts_size, link, out);
    case TAGOBRELIN_IDLE_MARK:
        empty_receiver(link);
        link->dropping = 0;
        return 0;
    case TAGOBRELIN_ACK_WAIT_OVER:
        return on_ack_wait_over(link, out);
    case TAGOBRELIN_POLL:
        return on_poll(datapoints, datapoint_count, link, out);
    case TAGOBRELIN_BUS_VALUE:
        return on_bus_value(id, value, value_count, datapoints, datapoint_count);
    default:
        return on_outcome(id, outcome, datapoints, datapoint_count);
    }
}
