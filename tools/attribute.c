#include "attribute.h"

#include "words.h"

#include <inttypes.h>
#include <stdio.h>

struct attribute {
    int64_t number; /* how it is asked for */
    int32_t scope, num, counts[2];
    uint64_t name, name_length;
};

/* An entry at a place of its list. */
struct entry {
    const struct attribute *of;
    int64_t kind;
    int32_t number, type, elements;
    uint64_t place; /* how it is asked for */
};

static int32_t read_attribute(const struct source *s, int64_t number, struct attribute *a)
{
    static const uint64_t fields[] = { TLZ_ATTRIBUTE_SCOPE, TLZ_ATTRIBUTE_NUMBER, TLZ_ATTRIBUTE_GR_ENTRIES,
                                       TLZ_ATTRIBUTE_Z_ENTRIES };
    int32_t *targets[] = { &a->scope, &a->num, &a->counts[0], &a->counts[1] };
    int32_t answer = tlz_read_attribute_name(s->file, s->length, number, &a->name, &a->name_length);

    a->number = number;
    for (size_t i = 0; i < sizeof fields / sizeof *fields && answer == 0; i++)
        answer = tlz_read_attribute(s->file, s->length, number, fields[i], targets[i]);
    return answer;
}

static int32_t read_fields(const struct source *s, struct entry *e)
{
    static const uint64_t fields[] = { TLZ_ENTRY_NUMBER, TLZ_ENTRY_TYPE, TLZ_ENTRY_ELEMENTS };
    int32_t *targets[] = { &e->number, &e->type, &e->elements };
    int32_t answer = 0;

    for (size_t i = 0; i < sizeof fields / sizeof *fields && answer == 0; i++)
        answer = tlz_read_entry_at(s->file, s->length, e->of->number, e->kind, e->place, fields[i], targets[i]);
    return answer;
}

static int32_t read_element(const struct source *source, const void *asked, int64_t element, struct value *value)
{
    const struct entry *e = asked;

    return tlz_read_entry_value_at(source->file, source->length, e->of->number, e->kind, e->place, element, &value->kind,
                                   &value->bits, &value->offset);
}

static const char *letter(const struct entry *entry)
{
    if (entry->kind == TLZ_ZENTRY)
        return "z";
    return entry->of->scope == 1 ? "g" : "r";
}

/* The values of an entry. */
static void print_elements(struct source *source, const struct entry *e, const char *between)
{
    const struct elements elements = { read_element, e, e->type, e->elements };

    values_print(source, &elements, between);
}

/* Characters are one string, and no list. */
static bool is_text(const struct entry *entry)
{
    return entry->type == 51 || entry->type == 52;
}

static void entry_text(struct source *source, const struct entry *e)
{
    printf("  %sEntry %" PRId32 " %s (%" PRId32 ") x %" PRId32 ": ", letter(e), e->number, words_of_type(e->type), e->type,
           e->elements);
    print_elements(source, e, " ");
    printf("\n");
}

static void entry_json(struct source *source, const struct entry *e)
{
    printf("{\"kind\": \"%s\", \"number\": %" PRId32 ", \"type\": %" PRId32 ", \"type_name\": \"%s\", \"elements\": %" PRId32
           ", \"values\": ",
           letter(e), e->number, e->type, words_of_type(e->type), e->elements);
    printf("%s", is_text(e) ? "" : "[");
    print_elements(source, e, ", ");
    printf("%s}", is_text(e) ? "" : "]");
}

/* A refusal in the list of entries. */
static void print_refused(struct source *source, int32_t answer, const char *before)
{
    source_refused(source, answer);
    printf(source->json ? "%s{\"refused\": %" PRId32 ", \"words\": \"%s\"}" : "%s  refused %" PRId32 ": %s\n",
           source->json ? before : "", answer, words_of_refusal(answer));
}

/* The entries of a kind, as many as the attribute says it has; more than the file has room for are refused by the reader. */
static bool print_entries(struct source *source, const struct attribute *of, int64_t kind, bool any)
{
    struct entry entry = { .of = of, .kind = kind };
    int32_t count = of->counts[kind == TLZ_ZENTRY], answer = 0;

    for (int32_t place = 0; place < count && answer == 0; place++, any = true) {
        entry.place = (uint64_t)place;
        answer = read_fields(source, &entry);
        if (answer != 0) {
            print_refused(source, answer, any ? ", " : "");
            continue;
        }
        printf("%s", source->json && any ? ", " : "");
        (source->json ? entry_json : entry_text)(source, &entry);
    }
    return any;
}

static void print_head(const struct source *source, const struct attribute *a)
{
    const char *scope = a->scope == 1 ? "global" : "variable";

    printf(source->json ? "{\"number\": %" PRId64 ", \"name\": " : "\nattribute %" PRId64 " ", a->number);
    values_string(source, source->file + a->name, a->name_length);
    if (source->json)
        printf(", \"num\": %" PRId32 ", \"scope\": \"%s\", \"entries\": [", a->num, scope);
    else
        printf(" %s\n", scope);
}

int32_t attribute_describe(struct source *source, int64_t number)
{
    struct attribute attribute;
    int32_t answer = read_attribute(source, number, &attribute);
    bool any = false;

    if (answer != 0)
        return answer;
    print_head(source, &attribute);
    any = print_entries(source, &attribute, TLZ_GRENTRY, false);
    print_entries(source, &attribute, TLZ_ZENTRY, any);
    if (source->json)
        printf("]}");
    return 0;
}
