/* The way to a value in plain C: opening, the list to the variable, its index, the values, the place, the element. */
#include "read.h"

#include "rules.h"

/* The way so far: the file, its length, its end once it is opened, and how many more records may be met. */
struct way {
    const uint8_t *f;
    int64_t length, end;
    int64_t left;
};

/* A link lands on a record of a type before the file's end, and one more record may be met. */
static int meets(struct way *w, int64_t o, int32_t type)
{
    if (w->left == 0 || o < 8 || o + 8 > w->end || field(w->f, o + 4) != type || o + field(w->f, o) > w->end)
        return 0;
    w->left--;
    return 1;
}

/* A variable: its VDR and the bytes of a record. */
struct variable {
    int64_t vdr, bytes;
};

/* Goes to a variable: 0, 15 or 20. */
static int32_t to_variable(struct way *w, int32_t kind, int64_t number, int64_t *vdr, int64_t *bytes)
{
    int64_t link = field(w->f, 16) + (kind == RVDR ? 8 : 12);
    for (int64_t i = 0;; i++) {
        int64_t o = field(w->f, link);
        if (o == 0)
            return 15;
        if (!meets(w, o, kind) || (field(w->f, o) >= 32 && (field(w->f, o + 28) & 4)))
            return 20;
        *bytes = variable_bytes(w->f, o, kind);
        if (*bytes < 0)
            return 20;
        *vdr = o;
        if (i == number)
            return 0;
        link = o + 8;
    }
}

/* The lowest index entry that covers a record, and its level. */
struct entry {
    int64_t first, last, o;
    int32_t level;
};

/* An entry names an index record. */
static int names_index(const struct way *w, int64_t o)
{
    return o >= 8 && o + 8 <= w->end && field(w->f, o + 4) == VXR;
}

/* Goes along an index chain to the entry that covers a record, and from there down: 0, 17 or 20. */
static int32_t to_entry(struct way *w, int64_t vdr, int64_t record, struct entry *e)
{
    const uint8_t *f = w->f;
    int64_t x = field(f, vdr + 20), from = 0, to = GREATEST;
    for (int32_t level = 1; x != 0;) {
        if (!meets(w, x, VXR) || !index_right(f, x) || level > LEVELS || (level > 1 && field(f, x + 8) != 0))
            return 20;
        int64_t entries = field(f, x + 12), used = field(f, x + 16), i = 0, first = 0, last = 0;
        for (; i < used; i++, from = last + 1) {
            first = field(f, x + 20 + 4 * i);
            last = field(f, x + 20 + 4 * (entries + i));
            if (first < from || last < first)
                return 20;
            if (first <= record && record <= last)
                break;
        }
        if (last > to) /* the greatest of them, as they rise */
            return 20;
        if (i == used) {
            x = field(f, x + 8);
            continue;
        }
        *e = (struct entry){ first, last, field(f, x + 20 + 4 * (2 * entries + i)), level++ };
        if (!names_index(w, e->o))
            return 0;
        x = e->o;
        from = first;
        to = last;
    }
    return 17;
}

/* Where a record begins in the values of an index entry: 0 or 20. */
static int32_t in_values(struct way *w, const struct entry *e, int64_t record, int64_t bytes, int64_t *start)
{
    if (!meets(w, e->o, VVR) || field(w->f, e->o) != 8 + (e->last - e->first + 1) * bytes)
        return 20;
    *start = e->o + 8 + (record - e->first) * bytes;
    return 0;
}

/* The place of a value in its record, or -1. */
static int64_t place_of(const uint8_t *f, int64_t vdr, int32_t kind, const int64_t *indices, size_t count)
{
    int64_t gdr = field(f, 16), dimensions = kind == ZVDR ? field(f, vdr + 128) : field(f, gdr + 36);
    int64_t sizes = kind == ZVDR ? vdr + 132 : gdr + 60, place = 0;
    int64_t variances = kind == ZVDR ? vdr + 132 + 4 * dimensions : vdr + 128;
    if ((int64_t)count != dimensions)
        return -1;
    for (int64_t i = 0; i < dimensions; i++)
        if (indices[i] < 0 || indices[i] >= field(f, sizes + 4 * i))
            return -1;
    for (int64_t i = 0; i < dimensions; i++) {
        int64_t d = field(f, 32) & 1 ? i : dimensions - 1 - i;
        if (field(f, variances + 4 * d) == -1)
            place = place * field(f, sizes + 4 * d) + indices[d];
    }
    return place;
}

/* Bytes as a number. */
static uint64_t number_at(const uint8_t *f, int64_t o, int64_t size, int little)
{
    uint64_t n = 0;
    for (int64_t i = 0; i < size; i++)
        n = n << 8 | f[little ? o + size - 1 - i : o + i];
    return n;
}

/* The 4 or 8 bytes of a VAX float as a number: of its 16-bit little-endian words the first is the most significant. */
static inline uint32_t two_words(const uint8_t *p)
{
    uint32_t n = (uint32_t)p[3] << 24 | (uint32_t)p[2] << 16 | (uint32_t)p[1] << 8 | p[0];
    return n << 16 | n >> 16;
}

static inline uint64_t four_words(const uint8_t *p)
{
    return (uint64_t)two_words(p) << 32 | two_words(p + 4);
}

/* The first `kept` of so many binary digits: rounded to nearest, ties to even, or with zeros behind them. */
static inline uint64_t rounded(uint64_t n, int digits, int kept)
{
    if (digits <= kept)
        return n << (kept - digits);
    int dropped = digits - kept;
    uint64_t odd = n >> dropped & 1, below_half = (UINT64_C(1) << (dropped - 1)) - 1; /* so that a tie carries if it is odd */
    return (n + below_half + odd) >> dropped;
}

/*
 * A VAX float of so many bits, w of them its mantissa, as the bits of a double: 0 or 22. The value is 0.1m * 2^(e - b), so it
 * has e + 1074 - b digits before the point in units of 2^-1074; up to 53 of them are kept. The sum puts the leading digit, and a
 * carry out of the rounding, into the double's exponent.
 */
static inline int32_t vax_to_double(uint64_t n, int size, int w, int b, uint64_t *bits)
{
    uint64_t hidden = UINT64_C(1) << w, sign = n >> (size - 1);
    int e = (int)(n >> w & ((UINT64_C(1) << (size - 1 - w)) - 1));
    if (e == 0 && sign != 0)
        return 22;
    int digits = e + 1074 - b, kept = digits < 53 ? digits : 53;
    uint64_t magnitude = ((uint64_t)(digits - kept) << 52) + rounded(hidden | (n & (hidden - 1)), w + 1, kept);
    *bits = e == 0 ? 0 : sign << 63 | magnitude;
    return 0;
}

/* A float of encoding 3, 14 or 15: F_FLOAT, and D_FLOAT or G_FLOAT. */
static int32_t vax_float(const uint8_t *f, int64_t o, int64_t size, int32_t encoding, uint64_t *bits)
{
    if (size == 4)
        return vax_to_double(two_words(f + o), 32, 23, 128, bits);
    uint64_t n = four_words(f + o);
    return encoding == 15 ? vax_to_double(n, 64, 52, 1024, bits) : vax_to_double(n, 64, 55, 128, bits);
}

/* The element at an offset: 0 or 22. */
static int32_t decode(const uint8_t *f, int64_t o, int32_t type, uint64_t *value_kind, uint64_t *bits)
{
    int32_t encoding = field(f, 28);
    int64_t size = element_size(type);
    int vax = encoding == 3 || encoding == 14 || encoding == 15;
    int little = vax || encoding == 4 || encoding == 6 || encoding == 13 || encoding == 16;
    int is_signed = type < 10 || type == 41, is_float = type == 21 || type == 22 || type == 31 || type == 44 || type == 45;
    if (is_float && vax) {
        int32_t answer = vax_float(f, o, size, encoding, bits);
        *value_kind = answer == 0 ? 3 : *value_kind;
        return answer;
    }
    uint64_t n = number_at(f, o, size, little);
    if (is_signed)
        n = size == 1 ? (uint64_t)(int8_t)n : size == 2 ? (uint64_t)(int16_t)n : (uint64_t)(int32_t)n;
    *value_kind = is_signed ? 0 : is_float ? (size == 4 ? 2 : 3) : type >= 51 ? 4 : 1;
    *bits = n;
    return 0;
}

/* Goes to the lowest index entry that covers a record: 0, 20, 15, 16 or 17; *record is 0 where record variance is clear. */
static int32_t to_record(struct way *w, int64_t kind, int64_t number, int64_t *record, struct variable *v, struct entry *e)
{
    if (opening(w->f, (size_t)w->length, (size_t)w->length) != 0)
        return 20;
    w->end = end_of(w->f);
    if ((kind != RVDR && kind != ZVDR) || number < 0)
        return 15;
    int32_t answer = to_variable(w, (int32_t)kind, number, &v->vdr, &v->bytes);
    if (answer != 0)
        return answer;
    int32_t most = field(w->f, v->vdr + 16);
    int varies = field(w->f, v->vdr + 28) & 1;
    if (*record < 0 || most < 0 || (varies && *record > most))
        return 16;
    *record = varies ? *record : 0;
    return to_entry(w, v->vdr, *record, e);
}

int32_t plain_value(const uint8_t *file, size_t file_len, int64_t kind, int64_t number, int64_t record,
                    const int64_t *indices, size_t index_count, int64_t element, uint64_t *value_kind, uint64_t *bits,
                    uint64_t *offset)
{
    struct way w = { file, (int64_t)file_len, 0, (int64_t)(file_len / 8) - 2 };
    struct variable v;
    struct entry e;
    int64_t start = 0;
    int32_t answer = to_record(&w, kind, number, &record, &v, &e);
    if (answer == 0)
        answer = in_values(&w, &e, record, v.bytes, &start);
    if (answer != 0)
        return answer;
    int64_t place = place_of(file, v.vdr, (int32_t)kind, indices, index_count);
    int32_t elements = field(file, v.vdr + 48), type = field(file, v.vdr + 12);
    if (place < 0 || element < 0 || element >= elements)
        return 18;
    int64_t at = start + (place * elements + element) * element_size(type);
    answer = decode(file, at, type, value_kind, bits);
    if (answer == 0)
        *offset = (uint64_t)at;
    return answer;
}

int32_t plain_levels(const uint8_t *file, size_t file_len, int64_t kind, int64_t number, int64_t record, int32_t *levels)
{
    struct way w = { file, (int64_t)file_len, 0, (int64_t)(file_len / 8) - 2 };
    struct variable v;
    struct entry e;
    int32_t answer = to_record(&w, kind, number, &record, &v, &e);
    if (answer == 0)
        *levels = e.level;
    return answer;
}
