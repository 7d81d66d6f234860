#include "look.h"

#include "record.h"
#include "words.h"

#include <inttypes.h>
#include <stdarg.h>
#include <stdio.h>
#include <string.h>

/* Most that is shown: bytes of a dump, entries of an index record. Room for what is wrong. */
enum { MOST_BYTES = 256, A_LINE = 16, MOST_ENTRIES = 64, MOST_NOTES = 8, NOTE_ROOM = 120 };

/* What is looked at. */
struct look {
    const struct source *source;
    uint64_t eof; /* where the file ends by what it says of itself, or its length if it does not open */
    uint64_t offset;
    const uint8_t *bytes; /* from the offset on .. */
    uint64_t have;        /* .. and how many: not behind the file's length, nor behind the record's size if it can be one */
    int32_t size, type;
    const struct kind *kind; /* NULL if there is no such type, or the size cannot be one */
    char notes[MOST_NOTES][NOTE_ROOM]; /* what is wrong */
    int noted;
    bool any;   /* a field was shown .. */
    bool whole; /* .. and all that the record's kind has */
};

static void note(struct look *l, const char *format, ...)
{
    va_list numbers;

    if (l->noted == MOST_NOTES)
        return;
    va_start(numbers, format);
    vsnprintf(l->notes[l->noted++], NOTE_ROOM, format, numbers);
    va_end(numbers);
}

/* So many bytes of the record from an offset on are there. */
static bool there(const struct look *l, uint64_t at, uint64_t length)
{
    return at <= l->have && length <= l->have - at;
}

/* A field of 4 bytes that is there. */
static int32_t number_at(const struct look *l, uint64_t at)
{
    return record_field(l->bytes + at);
}

static uint64_t eof_of(const struct source *source)
{
    int32_t padding = 0; /* a refusal leaves it as it is */

    tlz_read_file(source->file, source->length, TLZ_FILE_PADDING, &padding);
    return source->length - (uint64_t)padding;
}

/* How many numbers an array has; -1 if that cannot be known, or is not 0 to MOST_NUMBERS. */
static int32_t numbers_of(const struct look *l, const struct array *array)
{
    int32_t count = -1;

    if (array->count_at == OF_THE_GDR)
        tlz_read_file(l->source->file, l->source->length, TLZ_FILE_DIMENSIONS, &count); /* a refusal leaves it as it is */
    else if (there(l, (uint64_t)array->count_at, 4))
        count = number_at(l, (uint64_t)array->count_at);
    return count > MOST_NUMBERS ? -1 : count;
}

/* The entries of an index record lie in it. */
static bool entries_fit(const struct look *l)
{
    return there(l, 20, 0) && number_at(l, 12) >= 0 && there(l, 20, 12 * (uint64_t)number_at(l, 12));
}

/* Notes what is wrong with the numbers behind the fields, which are there and end at the least size. */
static void judge_arrays(struct look *l)
{
    uint64_t at = l->kind->least;

    for (int i = 0; i < ARRAYS && l->kind->arrays[i].name != NULL; i++) {
        int32_t count = numbers_of(l, &l->kind->arrays[i]);
        if (count < 0)
            note(l, "how many %s there are is not known, or not 0 to %d", l->kind->arrays[i].name, MOST_NUMBERS);
        else if (!there(l, at, 4 * (uint64_t)count))
            note(l, "%" PRId32 " %s do not fit in the record", count, l->kind->arrays[i].name);
        at += count < 0 ? 0 : 4 * (uint64_t)count;
    }
}

/* Notes what is wrong with the entries of an index record whose fields are there. */
static void judge_entries(struct look *l)
{
    if (!entries_fit(l))
        note(l, "so many entries do not fit in the record");
    if (number_at(l, 16) < 0 || number_at(l, 16) > number_at(l, 12))
        note(l, "the used entries are not 0 to all entries");
}

/* Notes what is wrong with where the record stands and ends. */
static void judge_bounds(struct look *l)
{
    uint64_t length = l->source->length, eof = l->eof;

    if (l->offset >= eof)
        note(l, "this is padding: the file's eof is 0x%" PRIx64 " (%" PRIu64 ")", eof, eof);
    else if (eof - l->offset < RECORD_HEAD)
        note(l, "a record has 8 bytes or more, and the file's eof is 0x%" PRIx64 " (%" PRIu64 ")", eof, eof);
    else if (l->size > 0 && (uint64_t)l->size > length - l->offset)
        note(l, "the record passes the end of the file, 0x%" PRIx64 " (%" PRIu64 ")", length, length);
    else if (l->size > 0 && (uint64_t)l->size > eof - l->offset)
        note(l, "the record passes the file's eof, 0x%" PRIx64 " (%" PRIu64 ")", eof, eof);
}

/* Notes what is wrong with a record whose size can be one. */
static void judge_record(struct look *l)
{
    if ((uint64_t)l->size < l->have)
        l->have = (uint64_t)l->size;
    if (l->kind == NULL)
        return;
    if ((uint32_t)l->size < l->kind->least)
        note(l, "such a record has %" PRIu32 " bytes or more", l->kind->least);
    if (!there(l, 0, l->kind->least))
        return;
    judge_arrays(l);
    if (l->kind->type == TYPE_OF_VXR)
        judge_entries(l);
}

/* Reads size and type, and notes what is wrong. */
static void judge(struct look *l)
{
    l->size = number_at(l, 0);
    l->type = number_at(l, 4);
    l->kind = record_kind(l->type);
    judge_bounds(l);
    if (l->kind == NULL)
        note(l, "no record has this type");
    if (l->size >= RECORD_HEAD) {
        judge_record(l);
        return;
    }
    note(l, "the size is %s; the bytes are those of the file", l->size < 0 ? "negative" : "below 8");
    l->kind = NULL;
}

/* A number in both forms. */
static void print_hex(const struct look *l, int32_t number)
{
    if (l->source->json)
        printf("%" PRId32 ", \"hex\": \"0x%" PRIx32 "\"", number, (uint32_t)number);
    else
        printf("0x%" PRIx32 " (%" PRId32 ")", (uint32_t)number, number);
}

/* A number and its name. */
static void print_named(const struct look *l, int32_t number, const char *name)
{
    printf(l->source->json ? "%" PRId32 ", \"meaning\": \"%s\"" : "%" PRId32 " (%s)", number, name);
}

/* What stands before a field's value, and the name of its member in JSON. */
static void begin_field(struct look *l, uint64_t at, const char *name, const char *member)
{
    if (l->source->json)
        printf("%s\n  {\"at\": %" PRIu64 ", \"name\": \"%s\", \"%s\": ", l->any ? "," : "", at, name, member);
    else
        printf("%5" PRIu64 " %-15s ", at, name);
    l->any = true;
}

static void end_field(const struct look *l)
{
    printf("%s", l->source->json ? "}" : "\n");
}

static void show_field(struct look *l, const struct field *field)
{
    const uint8_t *bytes = l->bytes + field->at;
    const uint8_t *nul = memchr(bytes, 0, field->length);

    begin_field(l, field->at, field->name, "value");
    if (field->form == AS_STRING)
        values_string(l->source, bytes, nul == NULL ? field->length : (size_t)(nul - bytes));
    else if (field->form == AS_HEX)
        print_hex(l, record_field(bytes));
    else if (field->form == AS_TYPE)
        print_named(l, record_field(bytes), words_of_type(record_field(bytes)));
    else if (field->form == AS_ENCODING)
        print_named(l, record_field(bytes), words_of_encoding(record_field(bytes)));
    else
        printf("%" PRId32, record_field(bytes));
    end_field(l);
}

/* Numbers that are there. */
static void show_array(struct look *l, const struct array *array, uint64_t at, int32_t count)
{
    begin_field(l, at, array->name, "values");
    printf("%s", l->source->json ? "[" : count == 0 ? "none" : "");
    for (int32_t i = 0; i < count; i++)
        printf("%s%" PRId32, i == 0 ? "" : l->source->json ? ", " : " ", number_at(l, at + 4 * (uint64_t)i));
    printf("%s", l->source->json ? "]" : "");
    end_field(l);
}

/* The fields of the record's kind that are there; gives how many bytes were shown. */
static uint64_t show_fields(struct look *l)
{
    static const struct field head[] = { { 0, 4, "RecordSize", AS_NUMBER }, { 4, 4, "RecordType", AS_NUMBER } };
    uint64_t shown = RECORD_HEAD;

    show_field(l, &head[0]);
    show_field(l, &head[1]);
    for (size_t i = 0; l->kind != NULL && i < l->kind->count; i++) {
        const struct field *field = &l->kind->fields[i];
        if (!there(l, field->at, field->length))
            return shown;
        show_field(l, field);
        shown = field->at + field->length;
    }
    for (int i = 0; l->kind != NULL && i < ARRAYS && l->kind->arrays[i].name != NULL; i++) {
        int32_t count = numbers_of(l, &l->kind->arrays[i]);
        if (count < 0 || !there(l, shown, 4 * (uint64_t)count))
            return shown;
        show_array(l, &l->kind->arrays[i], shown, count);
        shown += 4 * (uint64_t)count;
    }
    l->whole = true;
    return shown;
}

/* An entry of an index record whose entries fit in it. */
static void show_entry(const struct look *l, int32_t entry)
{
    uint64_t entries = (uint64_t)number_at(l, 12), at = 20 + 4 * (uint64_t)entry;
    int32_t first = number_at(l, at), last = number_at(l, at + 4 * entries), offset = number_at(l, at + 8 * entries);
    bool used = entry < number_at(l, 16);

    if (l->source->json)
        printf("%s\n  {\"entry\": %" PRId32 ", \"used\": %s, \"first\": %" PRId32 ", \"last\": %" PRId32 ", \"offset\": ",
               entry == 0 ? "" : ",", entry, used ? "true" : "false", first, last);
    else
        printf("  entry %" PRId32 ": First %" PRId32 ", Last %" PRId32 ", Offset ", entry, first, last);
    print_hex(l, offset);
    printf("%s", l->source->json ? "}" : used ? "\n" : ", unused\n");
}

/* The entries of an index record, if they fit in it; gives how many bytes of the record have been shown then. */
static uint64_t show_entries(const struct look *l, uint64_t shown)
{
    bool entries = l->kind != NULL && l->kind->type == TYPE_OF_VXR && entries_fit(l);
    int32_t count = entries ? number_at(l, 12) : 0, some = count < MOST_ENTRIES ? count : MOST_ENTRIES;

    if (l->source->json)
        printf("],\n \"entries\": [");
    for (int32_t i = 0; i < some; i++)
        show_entry(l, i);
    if (l->source->json)
        printf("], \"more_entries\": %" PRId32, count - some);
    else if (count > some)
        printf("  and %" PRId32 " more entries\n", count - some);
    return entries ? 20 + 12 * (uint64_t)count : shown;
}

/* A line of a dump: offset in the file, bytes in hexadecimal, and those that are ASCII text as such. */
static void dump_line(const struct look *l, uint64_t at, uint64_t count)
{
    printf("  0x%08" PRIx64 " ", l->offset + at);
    for (uint64_t i = 0; i < A_LINE; i++)
        printf(i < count ? " %02x" : "   ", i < count ? l->bytes[at + i] : 0);
    printf("  ");
    for (uint64_t i = 0; i < count; i++)
        putchar(l->bytes[at + i] >= 0x20 && l->bytes[at + i] < 0x7f ? l->bytes[at + i] : '.');
    printf("\n");
}

/* The bytes from an offset on, which are no fields. */
static void show_bytes(const struct look *l, uint64_t at)
{
    uint64_t count = l->have - at, some = count < MOST_BYTES ? count : MOST_BYTES;
    const char *name = l->whole && l->kind != NULL && l->kind->rest != NULL ? l->kind->rest : "bytes";

    if (l->source->json) {
        printf(",\n \"bytes\": {\"at\": %" PRIu64 ", \"name\": \"%s\", \"length\": %" PRIu64 ", \"hex\": \"", at, name, count);
        for (uint64_t i = 0; i < some; i++)
            printf("%02x", l->bytes[at + i]);
        printf("\", \"more\": %" PRIu64 "}", count - some);
        return;
    }
    if (count > 0)
        printf("%5" PRIu64 " %-15s %" PRIu64 " byte%s\n", at, name, count, count == 1 ? "" : "s");
    for (uint64_t i = 0; i < some; i += A_LINE)
        dump_line(l, at + i, some - i < A_LINE ? some - i : A_LINE);
    if (count > some)
        printf("  and %" PRIu64 " more bytes\n", count - some);
}

/* In plain words what is looked at. */
static const char *words_of(const struct look *l)
{
    if (l->have == 0)
        return "nothing";
    return record_words(l->source->file, l->offset < l->eof ? l->eof : l->source->length, l->offset);
}

/* What it is and where, with the name of its type if it has one, and what is wrong. */
static void head_text(const struct look *l, const struct kind *kind)
{
    printf("%s ", words_of(l));
    if (kind != NULL)
        printf("(%s) ", kind->name);
    printf("at 0x%" PRIx64 " (%" PRIu64 ")\n", l->offset, l->offset);
    for (int i = 0; i < l->noted; i++)
        printf("  note: %s\n", l->notes[i]);
}

static void head_json(const struct look *l, const struct kind *kind)
{
    const char *quote = kind == NULL ? "" : "\"";

    printf("{\"offset\": %" PRIu64 ", \"offset_hex\": \"0x%" PRIx64 "\", \"record\": \"%s\"", l->offset, l->offset,
           words_of(l));
    printf(", \"type_name\": %s%s%s, \"notes\": [", quote, kind == NULL ? "null" : kind->name, quote);
    for (int i = 0; i < l->noted; i++)
        printf("%s\"%s\"", i > 0 ? ", " : "", l->notes[i]);
    printf("],\n \"fields\": [");
}

bool look_at(const struct source *source, uint64_t offset)
{
    uint64_t length = source->length, left = offset < length ? length - offset : 0, shown = 0;
    struct look look = { .source = source, .eof = eof_of(source), .offset = offset, .have = left };

    look.bytes = left > 0 ? source->file + offset : source->file;
    if (left == 0)
        note(&look, "the offset is outside the file, which has %" PRIu64 " byte%s", length, length == 1 ? "" : "s");
    else if (left < RECORD_HEAD)
        note(&look, "a record has 8 bytes or more, and the file ends at 0x%" PRIx64 " (%" PRIu64 ")", length, length);
    else
        judge(&look);
    (source->json ? head_json : head_text)(&look, left < RECORD_HEAD ? NULL : record_kind(look.type));
    if (left >= RECORD_HEAD)
        shown = show_fields(&look);
    shown = show_entries(&look, shown);
    show_bytes(&look, shown);
    printf("%s", source->json ? "}\n" : "");
    return look.noted == 0;
}
