/*
 * The whole check in plain C: opening, sweep, walk, with the numbers, locations and steps of the rules. It takes no grants and
 * keeps no state; where it stands is kept in locals.
 */
#include "check.h"

#include "rules.h"

#include <string.h>

/* A swept file: its bytes, its marks and its end; the steps made, and the offset of the record at fault. */
struct swept {
    const uint8_t *f;
    uint8_t *m;
    int64_t end;
    uint64_t steps;
    int64_t where;
};

/* Refuses with a number, at the record of this offset. */
static int32_t refuse(struct swept *s, int32_t number, int64_t where)
{
    s->where = where;
    return number;
}

/* A step a record: 7, 14, or 0 when the file's end is met. */
static int32_t sweep(struct swept *s)
{
    int64_t o = 8;
    while (o != s->end) {
        s->steps++;
        if (s->end - o < 8)
            return refuse(s, 7, o);
        int64_t size = field(s->f, o);
        int32_t type = field(s->f, o + 4);
        if (size < 8 || size > s->end - o || type < -1 || type == 0 || type > 13)
            return refuse(s, 7, o);
        if (type >= 10)
            return refuse(s, 14, o);
        memset(s->m + o, 0, (size_t)size);
        s->m[o] = 1;
        o += size;
    }
    return 0;
}

/* A link of the record `holder` to a record of a type: 8, 9, or 0. */
static int32_t leads(struct swept *s, int64_t holder, int64_t o, int32_t type)
{
    if (o < 8 || o >= s->end || (s->m[o] != 1 && s->m[o] != 2) || field(s->f, o + 4) != type)
        return refuse(s, 8, holder);
    return s->m[o] == 1 ? 0 : refuse(s, 9, holder);
}

/* Claims the values that an entry of the VXR x names: 9, 10 or 0. */
static int32_t claim_values(struct swept *s, int64_t x, int64_t o, int64_t size)
{
    if (s->m[o] != 1)
        return refuse(s, 9, x);
    if (field(s->f, o) != size)
        return refuse(s, 10, o);
    s->m[o] = 2;
    return 0;
}

/* Claims the lower index record that an entry of the VXR x names, with so many index records above: 23, 9, 10, 11 or 0. */
static int32_t claim_lower(struct swept *s, int64_t x, int64_t o, int above)
{
    if (above == LEVELS)
        return refuse(s, 23, o);
    if (s->m[o] != 1)
        return refuse(s, 9, x);
    if (!index_right(s->f, o))
        return refuse(s, 10, o);
    if (field(s->f, o + 8) != 0)
        return refuse(s, 11, o);
    s->m[o] = 2;
    return 0;
}

/* An index record: how many entries it has and uses, the next one, and the greatest that a Last may be. */
struct level {
    int64_t x, entries, used, next, to;
};

static struct level level_of(const uint8_t *f, int64_t x, int64_t to)
{
    return (struct level){ x, field(f, x + 12), field(f, x + 16), 0, to };
}

/*
 * The used entries of the VXR x of a top chain, those of a lower record before the neighbour of the entry that names it.
 * *floor is the last Last + 1, *covered whether MaxRec lies in a range that names values.
 */
static int32_t walk_entries(struct swept *s, int64_t x, int64_t bytes, int32_t most, int64_t *floor, int *covered)
{
    const uint8_t *f = s->f;
    struct level l = level_of(f, x, GREATEST), above[LEVELS - 1];
    int64_t from = *floor;
    int depth = 0, met = *covered;
    while (l.next < l.used || depth > 0) {
        s->steps++;
        if (l.next == l.used) {
            from = l.to + 1;
            l = above[--depth];
            continue;
        }
        int64_t at = l.x + 20 + 4 * l.next++;
        int64_t first = field(f, at), last = field(f, at + 4 * l.entries), o = field(f, at + 8 * l.entries);
        if (first < from || last < first || last > l.to)
            return refuse(s, 12, l.x);
        int32_t type = o < 8 || o >= s->end || (s->m[o] != 1 && s->m[o] != 2) ? 0 : field(f, o + 4);
        if (type != VVR && type != VXR)
            return refuse(s, 8, l.x);
        int32_t number =
            type == VVR ? claim_values(s, l.x, o, 8 + (last - first + 1) * bytes) : claim_lower(s, l.x, o, depth + 1);
        if (number != 0)
            return number;
        if (type == VVR) {
            from = last + 1;
            met |= first <= most && most <= last;
        } else {
            above[depth++] = l;
            l = level_of(f, o, last);
            from = first;
        }
    }
    *floor = from;
    *covered = met;
    return 0;
}

/* The index chain of the variable v. */
static int32_t walk_index(struct swept *s, int64_t v, int64_t bytes)
{
    const uint8_t *f = s->f;
    int64_t floor = 0, tail = 0;
    int32_t most = field(f, v + 16);
    int covered = most == -1;
    for (int64_t x = field(f, v + 20);; x = field(f, x + 8)) {
        s->steps++;
        if (x == 0)
            break;
        int32_t number = leads(s, tail != 0 ? tail : v, x, VXR);
        if (number != 0)
            return number;
        if (!index_right(f, x))
            return refuse(s, 10, x);
        s->m[x] = 2;
        number = walk_entries(s, x, bytes, most, &floor, &covered);
        if (number != 0)
            return number;
        tail = x;
    }
    if (field(f, v + 24) != tail)
        return refuse(s, 11, tail != 0 ? tail : v);
    return covered ? 0 : refuse(s, 12, tail != 0 ? tail : v);
}

/* The list of variables of a kind, from a head. */
static int32_t walk_variables(struct swept *s, int32_t kind, int64_t v)
{
    const uint8_t *f = s->f;
    int64_t g = field(f, 16), holder = g;
    int32_t count = 0, greatest = -1;
    for (;; holder = v, v = field(f, v + 8), count++) {
        s->steps++;
        if (v == 0)
            break;
        int32_t number = leads(s, holder, v, kind);
        if (number != 0)
            return number;
        if (field(f, v) >= 32 && (field(f, v + 28) & 4))
            return refuse(s, 14, v);
        int64_t bytes = variable_bytes(f, v, kind);
        if (bytes < 0)
            return refuse(s, 10, v);
        if (field(f, v + 52) != count)
            return refuse(s, 11, v);
        s->m[v] = 2;
        if (field(f, v + 16) > greatest)
            greatest = field(f, v + 16);
        number = walk_index(s, v, bytes);
        if (number != 0)
            return number;
    }
    if (field(f, g + (kind == ZVDR ? 40 : 24)) != count)
        return refuse(s, 11, holder);
    return kind == ZVDR || field(f, g + 32) == greatest ? 0 : refuse(s, 11, holder);
}

/* The entries of a kind of the attribute a, from a head; its count and maximum stand at tally. */
static int32_t walk_attribute_entries(struct swept *s, int64_t a, int32_t kind, int64_t e, int64_t tally)
{
    const uint8_t *f = s->f;
    int64_t holder = a;
    int32_t count = 0, greatest = -1;
    for (;; holder = e, e = field(f, e + 8), count++) {
        s->steps++;
        if (e == 0)
            break;
        int32_t number = leads(s, holder, e, kind);
        if (number != 0)
            return number;
        if (field(f, e) < 48)
            return refuse(s, 10, e);
        int64_t element = element_size(field(f, e + 16)), elements = field(f, e + 24);
        if (element == 0 || field(f, e + 20) < 0 || elements < 1 || field(f, e) != 48 + elements * element)
            return refuse(s, 10, e);
        if (field(f, e + 12) != field(f, a + 20))
            return refuse(s, 11, e);
        s->m[e] = 2;
        if (field(f, e + 20) > greatest)
            greatest = field(f, e + 20);
    }
    return field(f, tally) == count && field(f, tally + 4) == greatest ? 0 : refuse(s, 11, holder);
}

/* The list of attributes. */
static int32_t walk_attributes(struct swept *s, int64_t a)
{
    const uint8_t *f = s->f;
    int64_t g = field(f, 16), holder = g;
    int32_t count = 0;
    for (;; holder = a, a = field(f, a + 8), count++) {
        s->steps++;
        if (a == 0)
            break;
        int32_t number = leads(s, holder, a, ADR);
        if (number != 0)
            return number;
        if (field(f, a) != 116 || field(f, a + 16) < 1 || field(f, a + 16) > 2)
            return refuse(s, 10, a);
        if (field(f, a + 20) != count)
            return refuse(s, 11, a);
        s->m[a] = 2;
        number = walk_attribute_entries(s, a, GR_AEDR, field(f, a + 12), a + 24);
        if (number == 0)
            number = walk_attribute_entries(s, a, Z_AEDR, field(f, a + 36), a + 40);
        if (number != 0)
            return number;
    }
    return field(f, g + 28) == count ? 0 : refuse(s, 11, holder);
}

/* The list of unused records. */
static int32_t walk_unused(struct swept *s, int64_t u)
{
    const uint8_t *f = s->f;
    int64_t before = 0;
    for (;; before = u, u = field(f, u + 8)) {
        s->steps++;
        if (u == 0)
            return 0;
        int32_t number = leads(s, before != 0 ? before : field(f, 16), u, UIR);
        if (number != 0)
            return number;
        if (field(f, u) < 16)
            return refuse(s, 10, u);
        if (field(f, u + 12) != before)
            return refuse(s, 11, u);
        s->m[u] = 2;
    }
}

/* 13 if a record in use was not claimed, else 0. */
static int32_t unclaimed(struct swept *s)
{
    for (int64_t o = 8; o != s->end; o += field(s->f, o))
        if (o != 8 && s->m[o] != 2 && field(s->f, o + 4) != UIR)
            return refuse(s, 13, o);
    return 0;
}

static int32_t walk(struct swept *s)
{
    const uint8_t *f = s->f;
    int64_t g = field(f, 16);
    s->steps++;
    int32_t number = leads(s, 8, g, GDR);
    if (number != 0)
        return number;
    s->m[g] = 2;
    number = walk_variables(s, RVDR, field(f, g + 8));
    if (number == 0)
        number = walk_variables(s, ZVDR, field(f, g + 12));
    if (number == 0)
        number = walk_attributes(s, field(f, g + 16));
    if (number == 0)
        number = walk_unused(s, field(f, g + 44));
    return number != 0 ? number : unclaimed(s);
}

int32_t plain_check(const uint8_t *file, size_t file_len, uint8_t *marks, size_t marks_len, uint64_t *steps, uint64_t *where)
{
    struct swept s = { file, marks, 0, 1, 0 };
    int32_t number = opening(file, file_len, marks_len);
    if (number == 0) {
        s.end = end_of(file);
        number = sweep(&s);
    }
    if (number == 0)
        number = walk(&s);
    *steps = s.steps;
    *where = (uint64_t)s.where;
    return number;
}
