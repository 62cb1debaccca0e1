#include <stdbool.h>
#include <string.h>

#include "plays.h"

struct lent lent;
struct play plays[VARIANTS];
static size_t datapoint_count, item_count, site_size, default_size;

static uint64_t state;

static uint32_t random_below(uint32_t n)
{
    state ^= state << 13;
    state ^= state >> 7;
    state ^= state << 17;
    return (uint32_t)((state >> 32) * n >> 32);
}

static const uint8_t size_of[15] = {1, 1, 1, 1, 1, 1, 1, 1, 2, 3, 4, 6, 8, 10, 14};

static void random_value(uint8_t typecode, uint8_t *value)
{
    for (size_t i = 0; i < size_of[typecode]; i++)
        value[i] = (uint8_t)random_below(256);
    if (typecode < 7)
        value[0] &= (uint8_t)((2 << typecode) - 1);
}

/* every third datapoint becomes DPT 9, type code 8, valid; what is drawn after it is drawn as without it */
static void make_readable(void)
{
    uint64_t drawn = state;
    memcpy(lent.readable, lent.datapoints, sizeof lent.readable);
    for (size_t i = 0; i < datapoint_count; i += 3) {
        struct tagobrelin_datapoint *d = &lent.readable[i];
        memset(d->value, 0, sizeof d->value);
        d->typecode = 8;
        d->dpt = 9;
        d->state |= 0x10;
        random_value(d->typecode, d->value);
    }
    state = drawn;
}

void make_tables(size_t datapoints, size_t items)
{
    uint32_t id = 0;
    /* the same again for the same sizes */
    state = 88172645463325252u;
    memset(&lent, 0, sizeof lent);
    datapoint_count = datapoints;
    item_count = items;
    site_size = default_size = 0;
    for (size_t i = 0; i < datapoints; i++) {
        struct tagobrelin_datapoint *d = &lent.datapoints[i];
        id += 1 + random_below(20);
        d->id = (uint16_t)id;
        /* every third has a longer value */
        d->typecode = (uint8_t)(i % 3 == 2 ? 8 + random_below(7) : random_below(8));
        d->state = (uint8_t)random_below(32);
        /* with bits 2 and 6, which the sets' command needs */
        d->flags = (uint8_t)(random_below(256) | 0x44);
        d->dpt = (uint8_t)random_below(256);
        random_value(d->typecode, d->value);
    }
    for (size_t i = 0; i < items; i++) {
        struct tagobrelin_item *t = &lent.items[i];
        t->id = (uint16_t)(i + 1);
        t->size = (uint8_t)(1 + random_below(16));
        t->writable = 1;
        for (size_t k = 0; k < t->size; k++)
            t->bytes[k] = (uint8_t)random_below(256);
    }
    for (size_t i = 0; i < sizeof lent.parameters; i++)
        lent.parameters[i] = (uint8_t)random_below(256);
    make_readable();
}

static size_t framed(uint8_t control, const uint8_t *message, size_t count, uint8_t *f)
{
    uint8_t sum = control;
    f[0] = f[3] = 0x68;
    f[1] = f[2] = (uint8_t)(count + 1);
    f[4] = control;
    memcpy(f + 5, message, count);
    for (size_t i = 0; i < count; i++)
        sum = (uint8_t)(sum + message[i]);
    f[count + 5] = sum;
    f[count + 6] = 0x16;
    return count + 7;
}

static void put_two_bytes(uint8_t *at, uint32_t n)
{
    at[0] = (uint8_t)(n >> 8);
    at[1] = (uint8_t)n;
}

/* 4 to 10 bytes of text, so that 20 of them fit in an answer; or none */
static size_t put_text(uint8_t *at, uint32_t id, bool empty)
{
    size_t length = empty ? 0 : 4 + random_below(7);
    put_two_bytes(at, id);
    at[2] = (uint8_t)length;
    for (size_t i = 0; i < length; i++)
        at[3 + i] = (uint8_t)('a' + random_below(26));
    return 3 + length;
}

void make_texts(size_t entries)
{
    uint32_t behind = datapoint_count ? lent.datapoints[datapoint_count - 1].id + 1u : 1;
    site_size = default_size = 0;
    for (size_t i = 0; i < entries; i++) {
        size_t at = entries < datapoint_count ? i * datapoint_count / entries : i;
        uint32_t id = at < datapoint_count ? lent.datapoints[at].id : behind++;
        site_size += put_text(lent.site_texts + site_size, id, i % 2 == 1);
        default_size += put_text(lent.default_texts + default_size, id, false);
    }
}

/* A get of this sub for so many datapoints, or as many as there are; without its filter */
static size_t get_message(uint8_t *m, uint8_t sub, size_t size)
{
    size_t from = datapoint_count > size ? random_below((uint32_t)(datapoint_count - size + 1)) : 0;
    size_t last = datapoint_count > size ? from + size - 1 : datapoint_count - 1;
    uint32_t start = datapoint_count ? lent.datapoints[from].id : 1;
    uint32_t number = datapoint_count ? lent.datapoints[last].id - start + 1u : (uint32_t)size;
    m[0] = 0xf0;
    m[1] = sub;
    put_two_bytes(m + 2, start);
    put_two_bytes(m + 4, number);
    return 6;
}

static size_t get_values_message(uint8_t *m, size_t size)
{
    size_t at = get_message(m, 5, size);
    m[at] = 0;
    return at + 1;
}

/* SetDatapointValue, value and request to send, for so many datapoints of one byte, anywhere in the table */
static size_t set_message(uint8_t *m, size_t size)
{
    size_t at = 6;
    memcpy(m, "\xf0\x06\x00\x01", 4);
    put_two_bytes(m + 4, (uint32_t)size);
    for (size_t i = 0; i < size; i++) {
        size_t k = datapoint_count ? random_below((uint32_t)datapoint_count) : 0;
        if (k % 3 == 2)
            k--;
        put_two_bytes(m + at, datapoint_count ? lent.datapoints[k].id : 1);
        m[at + 2] = 3;
        m[at + 3] = 1;
        m[at + 4] = 0;
        random_value(datapoint_count ? lent.datapoints[k].typecode : 0, m + at + 4);
        at += 5;
    }
    return at;
}

/* SetParameterByte for so many bytes, anywhere in the table: those that the message holds behind its head */
static size_t set_parameters_message(uint8_t *m, size_t size)
{
    memcpy(m, "\xf0\x08", 2);
    put_two_bytes(m + 2, 1 + random_below((uint32_t)(sizeof lent.parameters - size + 1)));
    put_two_bytes(m + 4, (uint32_t)size);
    return 6 + size;
}

/* `size` different datapoints, the longer values left out; all there are where there are less */
static void choose_marks(struct play *p, size_t size)
{
    size_t eligible = datapoint_count - datapoint_count / 3, wanted = datapoint_count <= 10 && size > datapoint_count ? datapoint_count : size;
    p->mark_count = 0;
    if (wanted > eligible) {
        for (size_t i = 0; i < datapoint_count && p->mark_count < wanted; i++)
            p->marks[p->mark_count++] = (uint16_t)i;
        return;
    }
    for (size_t i = 0; i < datapoint_count; i++)
        if (i % 3 != 2) {
            if (random_below((uint32_t)eligible) < wanted - p->mark_count)
                p->marks[p->mark_count++] = (uint16_t)i;
            eligible--;
        }
}

/* One of the frames that bursts are made of, with any bytes in it. Answers its size. */
static size_t put_burst_frame(uint8_t *at, size_t size)
{
    uint8_t message[254];
    if (size == 1) {
        at[0] = 0xe5;
        return 1;
    }
    for (size_t i = 0; i < sizeof message; i++)
        message[i] = (uint8_t)random_below(256);
    if (size > 4)
        return framed(0x73, message, size - 7, at);
    at[0] = 0x10;
    at[1] = at[2] = message[0];
    at[3] = 0x16;
    return 4;
}

static void make_burst(struct play *p, size_t size)
{
    size_t behind = p->kind == EXCHANGES, n = 0;
    while (size && n + size + behind <= sizeof p->burst) {
        n += put_burst_frame(p->burst + n, size);
        if (behind)
            n += put_burst_frame(p->burst + n, 1);
    }
    p->burst_size = (uint16_t)n;
}

static void add(struct play *p, uint8_t event, uint8_t byte, uint16_t id)
{
    p->steps[p->step_count++] = (struct step){event, byte, id};
}

unsigned make_plays(enum kind kind, size_t size, size_t held)
{
    for (size_t v = 0; v < VARIANTS; v++) {
        struct play *p = &plays[v];
        uint8_t message[254], f[261];
        size_t n = 0, gathered = 0;
        bool whole = false;
        memset(p, 0, sizeof *p);
        p->kind = kind;
        tagobrelin_fresh_link(&p->link);
        for (size_t i = 0; i < sizeof message; i++)
            message[i] = (uint8_t)(random_below(255) + 1);
        memcpy(message, "\xf0\x09", 2);
        if (kind == RESEND)
            held = size;
        if (held)
            p->link.held = (uint16_t)framed(0xf3, message, held - 7, p->link.outstanding);
        switch (kind) {
        case MID_FRAME:
        case STREAM:
        case IDLE:
            n = framed(0x73, message, sizeof message, f);
            gathered = kind == STREAM ? 5 : size;
            if (kind == IDLE)
                add(p, TAGOBRELIN_IDLE_MARK, 0, 0);
            else
                for (size_t i = gathered; i < gathered + (kind == STREAM ? size : 1); i++)
                    add(p, TAGOBRELIN_HOST_BYTE, f[i], 0);
            break;
        case GET:
        case GET_FRAME:
            n = framed(0x73, message, get_values_message(message, size), f);
            whole = kind == GET_FRAME;
            break;
        case STRINGS:
            n = framed(0x73, message, get_message(message, 4, size), f);
            break;
        case SET:
        case SET_FRAME:
            n = framed(0x73, message, set_message(message, size), f);
            whole = kind == SET_FRAME;
            break;
        case PARAMETERS:
            memcpy(message, "\xf0\x07\x00\x01\x00", 5);
            message[5] = (uint8_t)size;
            n = framed(0x73, message, 6, f);
            break;
        case SET_PARAMETERS:
            n = framed(0x73, message, set_parameters_message(message, size), f);
            break;
        case FRAME:
        case CHECKSUM:
            n = framed(0x73, message, size - 7, f);
            whole = kind == FRAME;
            break;
        case POLL:
            choose_marks(p, size);
            add(p, TAGOBRELIN_POLL, 0, 0);
            break;
        case BUS_VALUE:
        case OUTCOME: {
            /* without datapoints: refused */
            size_t k = datapoint_count ? random_below((uint32_t)datapoint_count) : 0;
            p->value_count = size_of[lent.datapoints[k].typecode];
            random_value(lent.datapoints[k].typecode, p->value);
            add(p, kind == OUTCOME ? TAGOBRELIN_OUTCOME : TAGOBRELIN_BUS_VALUE, 0, datapoint_count ? lent.datapoints[k].id : 1);
            break;
        }
        case RESEND:
            add(p, TAGOBRELIN_ACK_WAIT_OVER, 0, 0);
            break;
        case READING:
            /* without datapoints: refused */
            add(p, 0, 0, datapoint_count ? lent.readable[random_below(((uint32_t)datapoint_count + 2) / 3) * 3].id : 1);
            break;
        case BURST:
        case EXCHANGES:
            make_burst(p, size);
            p->step_count = 1;
            break;
        }
        if (n && p->step_count == 0) {
            gathered = whole ? 0 : kind == CHECKSUM ? n - 2 : n - 1;
            for (size_t i = gathered; i < (kind == CHECKSUM ? n - 1 : n); i++)
                add(p, TAGOBRELIN_HOST_BYTE, f[i], 0);
            if (whole)
                add(p, TAGOBRELIN_HOST_BYTE, 0xe5, 0);
        }
        memcpy(p->link.receiver, f, gathered);
        p->link.received = (uint16_t)gathered;
    }
    return plays[0].step_count;
}

int32_t play(const struct play *p, const struct functions *f)
{
    int32_t answer = 0;
    if (p->kind == READING)
        return f->read(p->steps[0].id, lent.readable, datapoint_count).number;
    if (p->kind == BURST || p->kind == EXCHANGES)
        return f->read_burst(p->burst, p->burst_size, lent.starts, TAGOBRELIN_LONGEST_BURST).number;
    memcpy(&lent.link, &p->link, sizeof lent.link);
    for (size_t i = 0; i < p->mark_count; i++)
        lent.datapoints[p->marks[i]].mark = 1;
    for (size_t i = 0; i < p->step_count; i++)
        answer = f->call(p->steps[i].event, p->steps[i].byte, p->steps[i].id, 2, p->value, p->value_count,
                         lent.datapoints, datapoint_count, lent.items, item_count, lent.parameters,
                         sizeof lent.parameters, lent.site_texts, site_size, lent.default_texts, default_size,
                         &lent.link, lent.out, sizeof lent.out);
    return answer;
}

/* by words, four sums side by side, so that none waits for the one before it */
static uint64_t read_bytes(const void *from, size_t n)
{
    const uint8_t *at = from;
    uint64_t a = 0, b = 0, c = 0, d = 0, w;
    for (; n >= 32; n -= 32, at += 32) {
        memcpy(&w, at, 8);
        a += w;
        memcpy(&w, at + 8, 8);
        b += w;
        memcpy(&w, at + 16, 8);
        c += w;
        memcpy(&w, at + 24, 8);
        d += w;
    }
    for (; n; n--)
        a += *at++;
    return a + b + c + d;
}

uint64_t read_all(void)
{
    return read_bytes(lent.datapoints, datapoint_count * sizeof *lent.datapoints) + read_bytes(lent.items, item_count * sizeof *lent.items) +
           read_bytes(lent.parameters, sizeof lent.parameters) + read_bytes(lent.site_texts, site_size) +
           read_bytes(lent.default_texts, default_size) + read_bytes(&lent.link, sizeof lent.link);
}
