#include "variable.h"

#include "words.h"

#include <inttypes.h>
#include <stdio.h>

/* The dimensions' sizes and variances; those of rVariables are the file's. */
static int32_t read_dimensions(const struct source *s, struct variable *v)
{
    int32_t answer = 0;

    if (v->kind == TLZ_RVARIABLE)
        answer = tlz_read_file(s->file, s->length, TLZ_FILE_DIMENSIONS, &v->dimensions);
    else
        answer = tlz_read_variable(s->file, s->length, v->kind, v->number, TLZ_VARIABLE_DIMENSIONS, &v->dimensions);
    for (int32_t d = 0; d < v->dimensions && d < MOST_DIMENSIONS && answer == 0; d++) {
        if (v->kind == TLZ_RVARIABLE)
            answer = tlz_read_dimension(s->file, s->length, d, &v->sizes[d]);
        else
            answer = tlz_read_size(s->file, s->length, v->kind, v->number, d, &v->sizes[d]);
        if (answer == 0)
            answer = tlz_read_variance(s->file, s->length, v->kind, v->number, d, &v->variances[d]);
    }
    return answer;
}

int32_t variable_read(const struct source *source, int64_t kind, int64_t number, struct variable *variable)
{
    static const uint64_t fields[] = { TLZ_VARIABLE_TYPE,       TLZ_VARIABLE_MAXREC,   TLZ_VARIABLE_FLAGS,
                                       TLZ_VARIABLE_SPARSENESS, TLZ_VARIABLE_ELEMENTS, TLZ_VARIABLE_NUMBER };
    int32_t answer = 0;

    *variable = (struct variable){ .kind = kind, .number = number };
    int32_t *targets[] = { &variable->type,       &variable->max_rec,  &variable->flags,
                           &variable->sparseness, &variable->elements, &variable->num };
    for (size_t i = 0; i < sizeof fields / sizeof *fields && answer == 0; i++)
        answer = tlz_read_variable(source->file, source->length, kind, number, fields[i], targets[i]);
    if (answer == 0)
        answer = tlz_read_variable_name(source->file, source->length, kind, number, &variable->name, &variable->name_length);
    return answer == 0 ? read_dimensions(source, variable) : answer;
}

static int32_t read_pad(const struct source *source, const void *asked, int64_t element, struct value *value)
{
    const struct variable *variable = asked;

    return tlz_read_pad(source->file, source->length, variable->kind, variable->number, element, &value->kind, &value->bits,
                        &value->offset);
}

/* The pad value, or that there is none. */
static void print_pad(struct source *source, const struct variable *variable)
{
    const struct elements pad = { read_pad, variable, variable->type, variable->elements };

    if ((variable->flags & TLZ_FLAG_PAD) == 0)
        fputs(source->json ? "null" : "none", stdout);
    else
        values_print(source, &pad, " ");
}

static const char *letter(const struct variable *variable)
{
    return variable->kind == TLZ_RVARIABLE ? "r" : "z";
}

static const char *sparseness(const struct variable *variable)
{
    static const char *const words[] = { "none", "pad", "previous" };

    return words[variable->sparseness % 3];
}

/* Asks for the levels of the index on the way to the greatest record, which is record 0 if records do not vary. */
static int32_t read_levels(struct source *source, const struct variable *v, int32_t *levels)
{
    bool vary = (v->flags & TLZ_FLAG_RECORD_VARIANCE) != 0;
    int32_t answer = tlz_read_levels(source->file, source->length, v->kind, v->number, vary ? v->max_rec : 0, levels);

    if (answer != TLZ_RECORD_IN_GAP)
        source_refused(source, answer);
    return answer;
}

/* The levels of an index that has more than one, or that they are refused. */
static void levels_text(struct source *source, const struct variable *v)
{
    int32_t levels = 0, answer = v->max_rec < 0 ? TLZ_RECORD_IN_GAP : read_levels(source, v, &levels);

    if (answer == 0 && levels > 1)
        printf("  index       %" PRId32 " levels\n", levels);
    else if (answer != 0 && answer != TLZ_RECORD_IN_GAP)
        printf("  index       refused %" PRId32 ": %s\n", answer, words_of_refusal(answer));
}

/* The levels of the index if there is a record; null if it is in a gap. */
static void levels_json(struct source *source, const struct variable *v)
{
    int32_t levels = 0, answer = 0;

    if (v->max_rec < 0)
        return;
    answer = read_levels(source, v, &levels);
    if (answer == 0)
        printf(", \"index_levels\": %" PRId32, levels);
    else if (answer == TLZ_RECORD_IN_GAP)
        printf(", \"index_levels\": null");
    else
        printf(", \"index_levels\": {\"refused\": %" PRId32 ", \"words\": \"%s\"}", answer, words_of_refusal(answer));
}

static void describe_text(struct source *source, const struct variable *v)
{
    printf("\n%sVariable %" PRId64 " ", letter(v), v->number);
    values_string(source, source->file + v->name, v->name_length);
    printf("\n  type        %s (%" PRId32 ")\n", words_of_type(v->type), v->type);
    printf("  elements    %" PRId32 "\n  dimensions ", v->elements);
    for (int32_t d = 0; d < v->dimensions; d++)
        printf(" %" PRId32 "%s", v->sizes[d], v->variances[d] == 0 ? " (fixed)" : "");
    printf("%s\n  records     %s\n", v->dimensions == 0 ? " none" : "",
           (v->flags & TLZ_FLAG_RECORD_VARIANCE) != 0 ? "vary" : "fixed");
    printf("  MaxRec      %" PRId32 "\n", v->max_rec);
    levels_text(source, v);
    printf("  sparse      %s\n  pad         ", sparseness(v));
    print_pad(source, v);
    printf("\n");
    if (v->num != v->number)
        printf("  Num         %" PRId32 "\n", v->num);
}

static void describe_json(struct source *source, const struct variable *v)
{
    printf("{\"kind\": \"%s\", \"number\": %" PRId64 ", \"num\": %" PRId32 ", \"name\": ", letter(v), v->number, v->num);
    values_string(source, source->file + v->name, v->name_length);
    printf(", \"type\": %" PRId32 ", \"type_name\": \"%s\", \"elements\": %" PRId32 ", \"dimensions\": [", v->type,
           words_of_type(v->type), v->elements);
    for (int32_t d = 0; d < v->dimensions; d++)
        printf("%s%" PRId32, d > 0 ? ", " : "", v->sizes[d]);
    printf("], \"variances\": [");
    for (int32_t d = 0; d < v->dimensions; d++)
        printf("%s%s", d > 0 ? ", " : "", v->variances[d] == 0 ? "false" : "true");
    printf("], \"record_variance\": %s, \"max_rec\": %" PRId32 ", \"sparseness\": \"%s\", \"pad\": ",
           (v->flags & TLZ_FLAG_RECORD_VARIANCE) != 0 ? "true" : "false", v->max_rec, sparseness(v));
    print_pad(source, v);
    levels_json(source, v);
    printf("}");
}

void variable_describe(struct source *source, const struct variable *variable)
{
    if (source->json)
        describe_json(source, variable);
    else
        describe_text(source, variable);
}

/* A value of a record, by its indices. */
struct asked {
    const struct variable *variable;
    int64_t record;
    int64_t indices[MOST_DIMENSIONS];
};

static int32_t read_value(const struct source *source, const void *asked, int64_t element, struct value *value)
{
    const struct asked *a = asked;
    const struct variable *v = a->variable;

    return tlz_read_value(source->file, source->length, v->kind, v->number, a->record, a->indices, (size_t)v->dimensions,
                          element, &value->kind, &value->bits, &value->offset);
}

/* The next indices of stored values below a dimension, the last one fastest; false behind the last ones. */
static bool advance(struct asked *asked, int32_t below)
{
    const struct variable *v = asked->variable;

    for (int32_t d = below - 1; d >= 0; d--) {
        if (v->variances[d] != 0 && ++asked->indices[d] < v->sizes[d])
            return true;
        asked->indices[d] = 0;
    }
    return false;
}

/* What stands before a row of values in text: the record, and the indices of all dimensions but the last. */
static void print_indices(const struct asked *asked)
{
    const struct variable *v = asked->variable;

    printf("%" PRId64, asked->record);
    for (int32_t d = 0; d + 1 < v->dimensions; d++) {
        printf("%s", d == 0 ? "[" : ",");
        if (v->variances[d] == 0)
            printf("*");
        else
            printf("%" PRId64, asked->indices[d]);
    }
    printf("%s:", v->dimensions > 1 ? "]" : "");
}

/* The values of a record in order of their indices; in text, a line for each run of the last dimension. */
static int32_t print_values(struct source *source, struct asked *asked)
{
    const struct variable *v = asked->variable;
    const struct elements value = { read_value, asked, v->type, v->elements };
    int32_t last = v->dimensions - 1, answer = 0;
    bool more = true, begins = true;

    while (more && answer == 0) {
        if (!source->json && begins)
            print_indices(asked);
        fputs(source->json ? (begins ? "" : ", ") : " ", stdout);
        answer = values_print(source, &value, " ");
        more = advance(asked, v->dimensions);
        begins = !source->json && (last < 0 || asked->indices[last] == 0);
        if (begins && answer == 0)
            printf("\n");
    }
    return answer;
}

/* The answer to a question for the first value of a record: 0 too if it is a reserved operand. */
static int32_t look_up(const struct source *source, const struct variable *variable, int64_t record)
{
    struct asked asked = { variable, record, { 0 } };
    struct value value;
    int32_t answer = read_value(source, &asked, 0, &value);

    return answer == TLZ_RESERVED_OPERAND ? 0 : answer;
}

/* A gap is looked at record by record; behind one of so many the records are not shown unless they are named. */
enum { LONGEST_GAP = 2000000 };

/* A run of records that cannot be shown: a gap, or a refusal. */
static void print_none(struct source *source, int64_t first, int64_t last, int32_t answer)
{
    if (answer != TLZ_RECORD_IN_GAP)
        source_refused(source, answer);
    if (source->json && answer == TLZ_RECORD_IN_GAP)
        printf("{\"first\": %" PRId64 ", \"last\": %" PRId64 ", \"gap\": true}\n", first, last);
    else if (source->json)
        printf("{\"record\": %" PRId64 ", \"refused\": %" PRId32 ", \"words\": \"%s\"}\n", first, answer,
               words_of_refusal(answer));
    else if (answer != TLZ_RECORD_IN_GAP)
        printf("%" PRId64 ": refused %" PRId32 ": %s\n", first, answer, words_of_refusal(answer));
    else if (first == last)
        printf("%" PRId64 ": gap\n", first);
    else
        printf("%" PRId64 "..%" PRId64 ": gap\n", first, last);
}

/* Records that are not looked at, behind a long gap. */
static void print_rest(struct source *source, int64_t first, int64_t last)
{
    source->cut = true;
    printf(source->json ? "{\"first\": %" PRId64 ", \"last\": %" PRId64 ", \"words\": \"not looked at\"}\n"
                        : "%" PRId64 "..%" PRId64 ": not looked at, name the records to see them\n",
           first, last);
}

/* A record that is there. */
static void print_record(struct source *source, const struct variable *variable, int64_t record)
{
    struct asked asked = { variable, record, { 0 } };

    if (source->json)
        printf("{\"record\": %" PRId64 ", \"values\": [", record);
    print_values(source, &asked);
    if (source->json)
        printf("]}\n");
}

void variable_record(struct source *source, const struct variable *variable, int64_t record)
{
    int32_t answer = look_up(source, variable, record);

    if (answer == 0)
        print_record(source, variable, record);
    else
        print_none(source, record, record, answer);
}

/* The last record of the gap that begins at a record, or that where looking on would take too long. */
static int64_t gap_end(const struct source *source, const struct variable *variable, int64_t record, int64_t last)
{
    int64_t end = last - record > LONGEST_GAP ? record + LONGEST_GAP : last;

    while (record < end && look_up(source, variable, record + 1) == TLZ_RECORD_IN_GAP)
        record++;
    return record;
}

void variable_records(struct source *source, const struct variable *variable)
{
    bool vary = (variable->flags & TLZ_FLAG_RECORD_VARIANCE) != 0;
    int64_t last = vary || variable->max_rec < 0 ? variable->max_rec : 0;

    for (int64_t record = 0; record <= last && source->refused == 0; record++) {
        int64_t first = record;
        int32_t answer = look_up(source, variable, record);
        if (answer == 0) {
            print_record(source, variable, record);
            continue;
        }
        if (answer == TLZ_RECORD_IN_GAP)
            record = gap_end(source, variable, record, last);
        print_none(source, first, record, answer);
        if (record - first == LONGEST_GAP && record < last) {
            print_rest(source, record + 1, last);
            return;
        }
    }
}
