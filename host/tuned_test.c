/* Holds tuned.c, tuned_read.c and tuned_burst.c against the archive: random tables, link records, events, readings and
 * bursts; after each call both have given the same answer and left the same bytes, padding included. Then every
 * two-octet value is read, and a frame of each length in a burst, cut and altered at each of its bytes.
 * Usage: tuned_test [CALLS [SEED]]. Prints how often each answer was met; the exit status tells whether all were the
 * same, whether description strings were answered with each code that they have, and whether each case of a reading,
 * each ending of a burst and the refusals of both were met. */
#include <stdbool.h>
#include <stdio.h>
#include <stdlib.h>
#include <string.h>

#include "tuned.h"

enum { OUT = 300, TEXTS = 4096 };

/* all that a call is lent */
static struct world {
    struct tagobrelin_datapoint datapoints[1001];
    struct tagobrelin_item items[65];
    struct tagobrelin_link link;
    uint8_t out[OUT];
    uint8_t parameters[256], value[20];
    uint8_t site_texts[TEXTS], default_texts[TEXTS];
} ours, tuned, saved;
static size_t datapoint_count, item_count, parameter_count, value_count, room, site_size, default_size;

static uint64_t state = 1;
static unsigned long calls, limit = 1500000;
static unsigned long refused[5], accepted[7], answered[8][11], sent_again, indications, longest;
static unsigned long readings, cases[6], read_refused[5];

/* a burst, of which some have more bytes than they may, and the run of places for each of the two */
static uint8_t burst[2400];
static uint16_t our_starts[2100], tuned_starts[2100];
static unsigned long bursts, endings[4], bursts_refused, frames_found, acknowledgements_found;

static uint32_t random_below(uint32_t n)
{
    state ^= state << 13;
    state ^= state >> 7;
    state ^= state << 17;
    return (uint32_t)((state >> 32) * n >> 32);
}

static bool one_in(uint32_t n)
{
    return random_below(n) == 0;
}

static void differs(const char *what, uint8_t event, uint8_t byte)
{
    const uint8_t *a = (const uint8_t *)&ours, *b = (const uint8_t *)&tuned;
    printf("call %lu, event %d, byte %02x, %zu datapoints: other %s\n", calls, event, byte, datapoint_count, what);
    for (size_t i = 0, shown = 0; i < sizeof ours && shown < 20; i++)
        if (a[i] != b[i] && ++shown)
            printf("  at %zu: %02x, tuned %02x\n", i, a[i], b[i]);
    exit(1);
}

/* one event to both */
static int32_t call(uint8_t event, uint8_t byte, uint16_t id, uint8_t outcome)
{
    int32_t a = tagobrelin_call(event, byte, id, outcome, ours.value, value_count, ours.datapoints, datapoint_count, ours.items, item_count,
                                ours.parameters, parameter_count, ours.site_texts, site_size, ours.default_texts,
                                default_size, &ours.link, ours.out, room);
    int32_t b = tuned_call(event, byte, id, outcome, tuned.value, value_count, tuned.datapoints, datapoint_count, tuned.items, item_count,
                           tuned.parameters, parameter_count, tuned.site_texts, site_size, tuned.default_texts,
                           default_size, &tuned.link, tuned.out, room);
    calls++;
    if (a != b) {
        printf("%d, tuned %d\n", (int)a, (int)b);
        differs("answer", event, byte);
    }
    if (memcmp(&ours, &tuned, sizeof ours))
        differs("memory", event, byte);
    if (a < 0)
        refused[a == TAGOBRELIN_NO_EVENT ? 0 : -a]++;
    else {
        accepted[event]++;
        if ((unsigned long)a > longest)
            longest = (unsigned long)a;
        if (event == TAGOBRELIN_HOST_BYTE && a > 1 && ours.out[7] >= 0x81 && ours.out[7] <= 0x88)
            answered[ours.out[7] - 0x81][ours.out[10] || ours.out[11] ? 0 : ours.out[12] < 11 ? ours.out[12] : 0]++;
        if (event == TAGOBRELIN_ACK_WAIT_OVER && a > 4)
            sent_again++;
        if (event == TAGOBRELIN_POLL && a > 0)
            indications++;
        memset(ours.out, 0xee, (size_t)a);
        memset(tuned.out, 0xee, (size_t)a);
    }
    return a;
}

/* one reading by both: the same three members, by their bits, and no byte of anything changed */
static void read_by_both(uint16_t id)
{
    struct tagobrelin_reading a, b;
    a = tagobrelin_read(id, ours.datapoints, datapoint_count);
    b = tuned_read(id, tuned.datapoints, datapoint_count);
    readings++;
    if (memcmp(&a, &b, sizeof a)) {
        printf("reading of %u, call %lu: %d %u %a, tuned %d %u %a\n", id, calls, (int)a.number, (unsigned)a.whole,
               (double)a.value, (int)b.number, (unsigned)b.whole, (double)b.value);
        exit(1);
    }
    if (memcmp(&ours, &tuned, sizeof ours))
        differs("memory behind a reading", 0, 0);
    if (a.number < 0)
        read_refused[-a.number]++;
    else
        cases[a.number]++;
}

/* one burst by both: the same three members, and the same places, those behind the last start too */
static void read_burst_by_both(size_t byte_count, size_t place_count)
{
    struct tagobrelin_burst a, b;
    memset(our_starts, 0xa5, sizeof our_starts);
    memset(tuned_starts, 0xa5, sizeof tuned_starts);
    a = tagobrelin_read_burst(burst, byte_count, our_starts, place_count);
    b = tuned_read_burst(burst, byte_count, tuned_starts, place_count);
    bursts++;
    if (memcmp(&a, &b, sizeof a) || memcmp(our_starts, tuned_starts, sizeof our_starts)) {
        printf("burst of %zu bytes: %d %u %u, tuned %d %u %u, or other places\n ", byte_count, (int)a.number, a.frames,
               a.acknowledgements, (int)b.number, b.frames, b.acknowledgements);
        for (size_t i = 0; i < byte_count; i++)
            printf(" %02x", burst[i]);
        printf("\n");
        exit(1);
    }
    if (a.number < 0)
        bursts_refused++;
    else
        endings[a.number]++;
    frames_found += a.frames;
    acknowledgements_found += a.acknowledgements;
}

static const uint8_t size_of[16] = {1, 1, 1, 1, 1, 1, 1, 1, 2, 3, 4, 6, 8, 10, 14, 5};

static void random_value(uint8_t typecode, uint8_t *value)
{
    for (size_t i = 0; i < size_of[typecode]; i++)
        value[i] = (uint8_t)random_below(256);
    if (typecode < 7)
        value[0] &= (uint8_t)((2 << typecode) - 1);
}

/* the datapoint type that goes with this type code in a reading, or any */
static uint8_t random_dpt(uint8_t typecode)
{
    static const uint8_t readable[15] = {[0] = 1, [7] = 5, [8] = 9, [10] = 14};
    return readable[typecode] && random_below(4) ? readable[typecode] : (uint8_t)random_below(one_in(2) ? 16 : 256);
}

/* whether a datapoint with these config flags takes the command */
static bool takes(uint8_t flags, uint8_t command)
{
    return command < 2 || (command < 4 && (flags & 0x44) == 0x44) || (command == 4 && (flags & 0x04) != 0);
}

/* A list of texts in order: none, some or many entries, mostly for datapoints that are there, long, short and empty.
 * Answers its size. */
static size_t random_texts(uint8_t *list)
{
    uint32_t most = one_in(4) ? 0 : one_in(2) ? 10 : 1400, longest = one_in(3) ? 30 : one_in(2) ? 8 : 1;
    bool all = one_in(2);
    size_t size = 0;
    int64_t last = -1;
    for (size_t i = 0; i <= datapoint_count && most; i++) {
        /* the IDs of the table, some of them left out, and some beside them */
        int64_t id = i < datapoint_count ? ours.datapoints[i].id : 65535;
        if (one_in(6))
            id -= random_below(3);
        if (id <= last || (!all && one_in(2)))
            continue;
        uint32_t length = one_in(4) ? 0 : one_in(8) ? 30 : random_below(longest + 1);
        if (size + 3 + length > TEXTS)
            break;
        list[size] = (uint8_t)(id >> 8);
        list[size + 1] = (uint8_t)id;
        list[size + 2] = (uint8_t)length;
        for (uint32_t k = 0; k < length; k++)
            list[size + 3 + k] = (uint8_t)random_below(256);
        size += 3 + length;
        last = id;
        most--;
    }
    return size;
}

static void new_world(void)
{
    static const uint8_t flags[] = {0x00, 0x04, 0x40, 0x44};
    static const size_t sizes[] = {0, 1, 2, 3, 5, 10, 33, 63, 64, 65, 100, 255, 256, 400, 511, 512, 513, 999, 1000};
    uint32_t id = 0, dense = one_in(2);
    memset(&ours, 0, sizeof ours);
    datapoint_count = sizes[random_below(one_in(3) ? 19 : 11)];
    item_count = one_in(3) ? 64 : random_below(65);
    parameter_count = one_in(3) ? 255 : random_below(256);
    room = TAGOBRELIN_ROOM + random_below(OUT - TAGOBRELIN_ROOM + 1);
    uint32_t few = one_in(2) ? 8 : 15;
    uint8_t open = one_in(2) ? 0x44 : 0; /* in every other world all take each command */
    for (size_t i = 0; i < datapoint_count; i++) {
        struct tagobrelin_datapoint *d = &ours.datapoints[i];
        id += dense ? 1 : 1 + random_below((uint32_t)(65535 - 1000 - id) / (uint32_t)(datapoint_count + 1 - i) + 1);
        d->id = (uint16_t)id;
        if (i == datapoint_count - 1 && one_in(4))
            d->id = 65535;
        d->typecode = (uint8_t)random_below(few);
        d->flags = (uint8_t)(open | (one_in(5) ? random_below(256) : flags[random_below(4)]));
        d->dpt = random_dpt(d->typecode);
        d->state = (uint8_t)random_below(32);
        random_value(d->typecode, d->value);
        d->mark = one_in(4);
        ((uint8_t *)d)[21] = (uint8_t)random_below(256);
    }
    id = 0;
    for (size_t i = 0; i < item_count; i++) {
        struct tagobrelin_item *t = &ours.items[i];
        id += 1 + random_below(3);
        t->id = (uint16_t)id;
        t->size = (uint8_t)(1 + random_below(one_in(2) ? 16 : 3));
        t->writable = random_below(4) > 0;
        for (size_t k = 0; k < t->size; k++)
            t->bytes[k] = (uint8_t)random_below(256);
    }
    for (size_t i = 0; i < parameter_count; i++)
        ours.parameters[i] = (uint8_t)random_below(256);
    site_size = random_texts(ours.site_texts);
    default_size = random_texts(ours.default_texts);
    tagobrelin_fresh_link(&ours.link);
    ((uint8_t *)&ours.link)[529] = 0xa5;
    memset(ours.out, 0xee, sizeof ours.out);
    tuned = ours;
    memcpy(&tuned, &ours, sizeof ours);
}

static uint16_t some_id(void)
{
    if (datapoint_count && random_below(20))
        return (uint16_t)(ours.datapoints[random_below((uint32_t)datapoint_count)].id + (one_in(40) ? 1 : 0));
    return (uint16_t)random_below(65536);
}

/* a request's message of some service, mostly in order */
static size_t random_message(uint8_t *m)
{
    uint32_t sub = random_below(9), start, number, size = 6;
    if (one_in(30)) {
        size = random_below(20);
        for (uint32_t i = 0; i < size; i++)
            m[i] = (uint8_t)random_below(256);
        return size;
    }
    m[0] = one_in(50) ? 0 : 0xf0;
    m[1] = (uint8_t)(one_in(50) ? 0x80 + sub : sub);
    start = sub == 1 || sub == 2 ? random_below(130) : sub == 7 ? random_below(one_in(2) ? 10 : 260) : some_id();
    number = one_in(20) ? 0 : one_in(10) ? random_below(65536) : 1 + random_below(one_in(3) ? 250 : 30);
    if (sub == 5) {
        m[6] = (uint8_t)random_below(one_in(20) ? 256 : 3);
        size = 7;
    }
    if (sub == 2 || sub == 6) {
        uint32_t most = one_in(3) ? 62 : 6, entries = random_below(most + 1), head = sub == 2 ? 3 : 4, k;
        for (k = 0; k < entries; k++) {
            uint8_t *entry = m + size;
            uint32_t count = 1, id, typecode = 7;
            if (sub == 2) {
                uint32_t i = item_count ? random_below((uint32_t)item_count) : 0;
                id = one_in(60) ? random_below(200) : ours.items[i].id;
                count = one_in(60) ? random_below(18) : ours.items[i].size;
            } else {
                uint32_t i = datapoint_count ? random_below((uint32_t)datapoint_count) : 0;
                id = one_in(60) ? some_id() : ours.datapoints[i].id;
                entry[2] = (uint8_t)(one_in(80) ? random_below(256) : one_in(60) ? 5 : random_below(5));
                /* one that needs flags which are off hides what stands beside it, so these are few */
                if (entry[2] < 5 && !takes(ours.datapoints[i].flags, entry[2]) && random_below(10))
                    entry[2] &= 1;
                typecode = ours.datapoints[i].typecode;
                count = one_in(60) ? random_below(18) : size_of[typecode];
                if (one_in(8) && entry[2] != 1 && entry[2] != 3)
                    count = 0;
            }
            if (size + head + count > 254)
                break;
            entry[0] = (uint8_t)(id >> 8);
            entry[1] = (uint8_t)id;
            entry[head - 1] = (uint8_t)count;
            for (uint32_t q = 0; q < count; q++)
                entry[head + q] = (uint8_t)random_below(256);
            if (sub == 6 && count && typecode < 7 && random_below(60))
                entry[head] &= (uint8_t)((2 << typecode) - 1);
            size += head + count;
        }
        number = one_in(40) ? random_below(4) : k;
    }
    if (sub == 8) {
        /* a range of the table, but for some that begin outside or go on behind it, and as many bytes, but for some */
        uint32_t count = (uint32_t)parameter_count, left;
        start = one_in(30) ? random_below(65536) : one_in(20) ? random_below(2) * (count + 1) : 1 + random_below(count);
        left = start > 0 && start <= count ? count - start + 1 : 30;
        number = one_in(20) ? 0 : one_in(4) ? left + one_in(4) : 1 + random_below(left);
        if (number > 248)
            number = 248;
        for (uint32_t q = 0; q < number; q++)
            m[size++] = (uint8_t)random_below(256);
        if (one_in(40))
            number += one_in(2) ? 1 : 256;
    }
    if (one_in(40))
        m[size++] = 0;
    m[2] = (uint8_t)(start >> 8);
    m[3] = (uint8_t)start;
    m[4] = (uint8_t)(number >> 8);
    m[5] = (uint8_t)number;
    return size > 254 ? 254 : size;
}

static void random_frame(void)
{
    uint8_t f[280];
    size_t n = random_message(f + 5);
    uint8_t sum = 0;
    f[0] = f[3] = 0x68;
    f[1] = f[2] = (uint8_t)(n + 1);
    f[4] = one_in(20) ? (uint8_t)random_below(256) : (ours.link.expected != one_in(12)) ? 0x73 : 0x53;
    for (size_t i = 4; i < n + 5; i++)
        sum = (uint8_t)(sum + f[i]);
    f[n + 5] = sum;
    f[n + 6] = 0x16;
    if (one_in(15))
        f[random_below((uint32_t)n + 7)] ^= (uint8_t)(1 << random_below(8));
    size_t count = one_in(20) ? random_below((uint32_t)n + 7) : n + 7;
    for (size_t i = 0; i < count; i++)
        call(TAGOBRELIN_HOST_BYTE, f[i], 0, 0);
    if (random_below(4))
        call(TAGOBRELIN_IDLE_MARK, 0, 0, 0);
    if (random_below(4))
        call(TAGOBRELIN_HOST_BYTE, 0xe5, 0, 0);
}

static size_t put_fixed_frame(uint8_t *at)
{
    at[0] = 0x10;
    at[1] = at[2] = (uint8_t)(one_in(3) ? 0x40 : random_below(256));
    at[3] = 0x16;
    return 4;
}

/* a data frame with any bytes in it, `length` of them control and data; it is sound where they are 1 or more */
static size_t put_data_frame(uint8_t *at, size_t length)
{
    uint8_t sum = 0;
    at[0] = at[3] = 0x68;
    at[1] = at[2] = (uint8_t)length;
    for (size_t i = 4; i < 4 + length; i++)
        sum = (uint8_t)(sum + (at[i] = (uint8_t)random_below(256)));
    at[4 + length] = sum;
    at[5 + length] = 0x16;
    return length + 6;
}

/* frames and acknowledgements side by side, of few or of many bytes each; answers how many bytes they have */
static size_t put_pieces(uint8_t *at, size_t most)
{
    size_t n = 0;
    uint32_t kinds = 1 + random_below(6), longest = one_in(2) ? 12 : 255;
    while (n < most)
        switch (random_below(kinds)) {
        case 0:
        case 1:
            for (uint32_t k = one_in(8) ? 1 + random_below(40) : 1; k; k--)
                at[n++] = 0xe5;
            break;
        case 2:
            n += put_fixed_frame(at + n);
            break;
        default:
            n += put_data_frame(at + n, one_in(50) ? 0 : 1 + random_below(longest));
        }
    return n;
}

/* Some pieces, of which the last are mostly cut or altered; and some bytes that are none. */
static void random_burst(void)
{
    static const uint8_t forms[] = {0xe5, 0x10, 0x68, 0x16, 0x00, 0x01};
    size_t most = one_in(4) ? random_below(8) : one_in(2) ? random_below(300) : random_below(2100);
    size_t n = put_pieces(burst, most);
    if (one_in(2))
        n -= random_below((uint32_t)(n < 270 ? n : 270) + 1);
    for (uint32_t k = random_below(3); k && n; k--) {
        size_t at = one_in(2) ? random_below((uint32_t)n) : n - 1 - random_below((uint32_t)(n < 270 ? n : 270));
        burst[at] = (uint8_t)(one_in(2) ? forms[random_below(sizeof forms)] : random_below(256));
    }
    for (uint32_t k = one_in(6) ? random_below(8) : 0; k; k--)
        burst[n++] = (uint8_t)(one_in(2) ? forms[random_below(sizeof forms)] : random_below(256));
    if (random_below(8) && n > TAGOBRELIN_LONGEST_BURST)
        n = TAGOBRELIN_LONGEST_BURST;
    read_burst_by_both(n, one_in(20) ? 2040 + random_below(20) : TAGOBRELIN_LONGEST_BURST);
}

static uint8_t random_event(void)
{
    return (uint8_t)(1 + random_below(6));
}

/* a byte that has to be 0 or 1 is neither: some mark, writable, dropping, expected or send */
static void alter_0_or_1(void)
{
    static const uint8_t others[] = {2, 3, 0x80, 0xff};
    uint8_t other = others[random_below(4)];
    size_t k;
    switch (random_below(5)) {
    case 0:
        k = random_below((uint32_t)datapoint_count + 1); /* also behind the last: nobody looks there */
        ours.datapoints[k].mark = tuned.datapoints[k].mark = other;
        break;
    case 1:
        k = random_below((uint32_t)item_count + 1);
        ours.items[k].writable = tuned.items[k].writable = other;
        break;
    case 2:
        ours.link.dropping = tuned.link.dropping = other;
        break;
    case 3:
        ours.link.expected = tuned.link.expected = other;
        break;
    default:
        ours.link.send = tuned.link.send = other;
    }
}

/* a list of texts is cut, has bytes behind it, or one byte of it is altered, mostly of an entry's head; some are in
 * order still */
static void alter_texts(void)
{
    bool site = one_in(2);
    uint8_t *a = site ? ours.site_texts : ours.default_texts, *b = site ? tuned.site_texts : tuned.default_texts;
    size_t *size = site ? &site_size : &default_size, at = 0;
    if (*size == 0 || one_in(3)) {
        uint32_t room_behind = (uint32_t)(TEXTS - *size), behind = one_in(2) && room_behind > 3 ? 3 : room_behind;
        *size = one_in(2) ? random_below((uint32_t)*size + 1) : *size + random_below(behind + 1);
        return;
    }
    for (uint32_t n = random_below(20); n && at + 3 + a[at + 2] < *size; n--)
        at += 3u + a[at + 2];
    at += random_below(one_in(4) ? (uint32_t)(*size - at) : 3);
    a[at] = b[at] = (uint8_t)(one_in(3) ? 30 + random_below(2) : one_in(2) ? a[at] + 1u : random_below(256));
}

/* some byte of the tables, of the lists of texts or of the link record is altered, or a count, for a call or a few */
static void broken(void)
{
    size_t d = datapoint_count, i = item_count, p = parameter_count, r = room, k = 1 + random_below(3);
    size_t s = site_size, t = default_size;
    bool alone = false;
    memcpy(&saved, &ours, sizeof ours);
    switch (random_below(11)) {
    case 0:
        datapoint_count = 1001;
        break;
    case 1:
        item_count = 65;
        break;
    case 2:
        parameter_count = 256;
        break;
    case 3:
        room = random_below(TAGOBRELIN_ROOM);
        break;
    case 4:
        ours.link.received = tuned.link.received = (uint16_t)random_below(one_in(2) ? 300 : 65536);
        break;
    case 5:
        ours.link.held = tuned.link.held = (uint16_t)random_below(one_in(2) ? 300 : 65536);
        break;
    case 6:
        alter_0_or_1();
        alone = random_below(4) > 0;
        break;
    case 7:
    case 8:
        alter_texts();
        alone = random_below(4) > 0;
        break;
    default:
        break;
    }
    while (!alone && k--) {
        uint8_t *a, *b, mask = (uint8_t)(1 << random_below(8));
        size_t at, in = random_below(3);
        if (in == 0 && d) {
            at = random_below((uint32_t)d) * sizeof *ours.datapoints + random_below(21);
            a = (uint8_t *)ours.datapoints + at;
            b = (uint8_t *)tuned.datapoints + at;
        } else if (in == 1 && i) {
            at = random_below((uint32_t)i) * sizeof *ours.items + random_below(20);
            a = (uint8_t *)ours.items + at;
            b = (uint8_t *)tuned.items + at;
        } else {
            at = random_below(529);
            a = (uint8_t *)&ours.link + at;
            b = (uint8_t *)&tuned.link + at;
        }
        *a ^= mask;
        *b ^= mask;
    }
    if (one_in(4))
        read_by_both(some_id());
    call(random_event(), (uint8_t)random_below(256), some_id(), (uint8_t)random_below(3));
    datapoint_count = d;
    item_count = i;
    parameter_count = p;
    room = r;
    site_size = s;
    default_size = t;
    memcpy(&ours, &saved, sizeof ours);
    memcpy(&tuned, &saved, sizeof ours);
}

static void random_bus_value(void)
{
    uint16_t id = some_id();
    value_count = random_below(16);
    for (size_t i = 0; i < sizeof ours.value; i++)
        ours.value[i] = (uint8_t)random_below(256);
    for (size_t i = 0; i < datapoint_count && random_below(20); i++)
        if (ours.datapoints[i].id == id) {
            value_count = size_of[ours.datapoints[i].typecode];
            if (random_below(20))
                random_value(ours.datapoints[i].typecode, ours.value);
        }
    memcpy(tuned.value, ours.value, sizeof ours.value);
    call(TAGOBRELIN_BUS_VALUE, 0, id, (uint8_t)random_below(256));
}

static void something(void)
{
    static const uint8_t reset[4] = {0x10, 0x40, 0x40, 0x16};
    switch (random_below(14)) {
    case 0:
    case 1:
    case 2:
        random_frame();
        break;
    case 3:
        random_bus_value();
        break;
    case 4:
        call(TAGOBRELIN_OUTCOME, 0, some_id(), (uint8_t)random_below(one_in(20) ? 256 : 3));
        break;
    case 5:
        call(TAGOBRELIN_POLL, 0, 0, 0);
        break;
    case 6:
        for (uint32_t n = random_below(6); n; n--)
            call(TAGOBRELIN_ACK_WAIT_OVER, 0, 0, 0);
        break;
    case 7:
        call(TAGOBRELIN_IDLE_MARK, 0, 0, 0);
        break;
    case 8:
        for (uint32_t i = 0; i < 4; i++)
            call(TAGOBRELIN_HOST_BYTE, (uint8_t)(reset[i] ^ (one_in(8) ? 1 : 0)), 0, 0);
        break;
    case 9:
        for (uint32_t n = random_below(8); n; n--)
            call(TAGOBRELIN_HOST_BYTE, (uint8_t)(one_in(3) ? 0x10 : one_in(2) ? 0x68 : one_in(2) ? 0xe5 : random_below(256)), 0, 0);
        break;
    case 10:
        for (uint32_t n = 6; n; n--)
            broken();
        break;
    case 11:
        for (uint32_t n = 1 + random_below(6); n; n--)
            read_by_both(some_id());
        break;
    case 12:
        for (uint32_t n = 1 + random_below(6); n; n--)
            random_burst();
        break;
    default:
        if (one_in(20))
            call((uint8_t)random_below(256), 0, 0, (uint8_t)random_below(4));
        call(TAGOBRELIN_HOST_BYTE, 0xe5, 0, 0);
    }
}

/* DPT 9, all its patterns; and DPT 14, each sign and exponent with some mantissas */
static void every_value(void)
{
    static const uint32_t mantissas[] = {0, 1, 0x400000, 0x7fffff};
    memset(&ours, 0, sizeof ours);
    datapoint_count = 1;
    ours.datapoints[0] = (struct tagobrelin_datapoint){.id = 7, .typecode = 8, .dpt = 9, .state = 0x18, .mark = 1};
    for (uint32_t bits = 0; bits < 0x10000; bits++) {
        ours.datapoints[0].value[0] = (uint8_t)(bits >> 8);
        ours.datapoints[0].value[1] = (uint8_t)bits;
        memcpy(&tuned, &ours, sizeof ours);
        read_by_both(7);
    }
    ours.datapoints[0].typecode = 10;
    ours.datapoints[0].dpt = 14;
    for (uint32_t bits = 0; bits < 512 * 4; bits++) {
        uint32_t mantissa = mantissas[bits % 4];
        for (size_t i = 0; i < 4; i++)
            ours.datapoints[0].value[i] = (uint8_t)((bits / 4 << 23 | mantissa) >> (24 - 8 * i));
        memcpy(&tuned, &ours, sizeof ours);
        read_by_both(7);
    }
}

/* Frames of each length, an E5 behind each: cut at each byte; each byte another one, and the last. Then bursts of E5, and
 * of fixed frames, of each size. */
static void every_frame(void)
{
    for (size_t length = 0; length < 256; length++) {
        size_t n = put_data_frame(burst, length);
        burst[n++] = 0xe5;
        for (size_t cut = 0; cut <= n; cut++)
            read_burst_by_both(cut, TAGOBRELIN_LONGEST_BURST);
        for (size_t at = 0; at < n; at++) {
            uint8_t was = burst[at];
            burst[at] = (uint8_t)(was + 1 + random_below(255));
            read_burst_by_both(n, TAGOBRELIN_LONGEST_BURST);
            read_burst_by_both(at + 1, TAGOBRELIN_LONGEST_BURST);
            burst[at] = was;
        }
    }
    memset(burst, 0xe5, sizeof burst);
    for (size_t n = 0; n <= 2049; n++)
        read_burst_by_both(n, TAGOBRELIN_LONGEST_BURST);
    for (size_t n = 0; n < 2048; n += put_fixed_frame(burst + n))
        read_burst_by_both(n, TAGOBRELIN_LONGEST_BURST);
    read_burst_by_both(2048, TAGOBRELIN_LONGEST_BURST);
}

int main(int argc, char **argv)
{
    if (argc > 1)
        limit = strtoul(argv[1], NULL, 10);
    if (argc > 2)
        state = strtoull(argv[2], NULL, 10) * 0x9e3779b97f4a7c15u + 1;
    while (calls < limit) {
        new_world();
        for (int i = 0; i < 60; i++)
            something();
    }
    every_value();
    every_frame();
    printf("%lu calls, the same answers and the same bytes; the longest reply has %lu\n", calls, longest);
    printf("  refused: no event %lu, 1: %lu, 2: %lu, 3: %lu, 4: %lu\n", refused[0], refused[1], refused[2], refused[3], refused[4]);
    printf("  accepted: host byte %lu, idle mark %lu, ack wait over %lu (%lu sent again), poll %lu (%lu indications), bus value %lu, outcome %lu\n", accepted[1],
           accepted[2], accepted[3], sent_again, accepted[4], indications, accepted[5], accepted[6]);
    for (int sub = 1; sub <= 8; sub++) {
        printf("  answers to sub %d:", sub);
        for (int code = 0; code < 11; code++)
            if (answered[sub - 1][code])
                printf(" %s%d: %lu", code ? "code " : "", code, answered[sub - 1][code]);
        printf("\n");
    }
    printf("  %lu readings: switch %lu, count %lu, two-octet value %lu, single %lu, unreadable %lu", readings, cases[1],
           cases[2], cases[3], cases[4], cases[5]);
    printf("; refused 1: %lu, 4: %lu\n", read_refused[1], read_refused[4]);
    if (!cases[1] || !cases[2] || !cases[3] || !cases[4] || !cases[5] || !read_refused[1] || !read_refused[4]) {
        printf("never met: a case of a reading, or a refusal\n");
        return 1;
    }
    printf("  %lu bursts with %lu frames and %lu acknowledgements: clean %lu, damaged %lu, unfinished %lu; refused %lu\n",
           bursts, frames_found, acknowledgements_found, endings[1], endings[2], endings[3], bursts_refused);
    if (!endings[1] || !endings[2] || !endings[3] || !bursts_refused) {
        printf("never met: an ending of a burst, or its refusal\n");
        return 1;
    }
    static const int codes[] = {0, 2, 3, 6, 10};
    for (size_t i = 0; i < sizeof codes / sizeof *codes; i++)
        if (!answered[4 - 1][codes[i]]) {
            printf("never met: code %d for sub 4\n", codes[i]);
            return 1;
        }
    return 0;
}
