/* Shows what a CDF file holds; man/cdfread.1 describes it. */
#include "attribute.h"
#include "console.h"
#include "input.h"
#include "look.h"
#include "options.h"
#include "text.h"
#include "variable.h"
#include "words.h"

#include <inttypes.h>
#include <stdio.h>
#include <string.h>

static const char help[] =
    "Usage: cdfread [OPTION].. FILE\n"
    "       cdfread [OPTION].. FILE r|z NUMBER [RECORD]..\n"
    "       cdfread [OPTION].. FILE --at OFFSET\n"
    "Shows what a CDF file holds (single file, uncompressed, versions 2.6 and 2.7): its variables, attributes and entries;\n"
    "or the values of an rVariable or zVariable, of the records that are named or of all. The file is read, not checked.\n"
    "\n"
    "  --at OFFSET    show the record at this offset, field by field, whatever the file; 0x.. is hexadecimal\n"
    "  --json         JSON: one object for a file or a record at an offset, one a record for values\n"
    "  --help         this text\n"
    "  --version      the version\n"
    "\n"
    "Exit status: 0 all that was asked for was shown; 1 something was refused or not looked at, which is said in its place,\n"
    "or there is a note about the record at an offset; 2 the file cannot be read, or the command line is wrong.\n";

static const struct program program = { "cdfread", help, READ };

/* A refusal on a line or in an object of its own, with more members behind it. */
static void print_refusal(const struct source *source, int32_t number, const char *more)
{
    if (source->json)
        printf("{\"refused\": %" PRId32 ", \"words\": \"%s\"%s}", number, words_of_refusal(number), more);
    else
        printf("refused %" PRId32 ": %s\n", number, words_of_refusal(number));
}

/* The variables of a kind, as many as the file says there are; gives whether there was one. */
static bool list_variables(struct source *source, int64_t kind, int32_t count, bool any)
{
    struct variable variable;
    int32_t answer = 0;

    for (int32_t number = 0; number < count && answer == 0; number++, any = true) {
        answer = variable_read(source, kind, number, &variable);
        if (source->json)
            printf("%s\n  ", any ? "," : "");
        if (source_refused(source, answer))
            print_refusal(source, answer, "");
        else
            variable_describe(source, &variable);
    }
    return any;
}

static void list_attributes(struct source *source, int32_t count)
{
    int32_t answer = 0;

    for (int32_t number = 0; number < count && answer == 0; number++) {
        if (source->json)
            printf("%s\n  ", number > 0 ? "," : "");
        answer = attribute_describe(source, number);
        if (source_refused(source, answer))
            print_refusal(source, answer, "");
    }
}

/* What a file says of itself. */
struct said {
    int32_t majority, encoding, r_variables, z_variables, attributes, dimensions, padding, sizes[MOST_DIMENSIONS];
};

static int32_t read_said(const struct source *source, struct said *said)
{
    int32_t *targets[] = { &said->majority,   &said->encoding,   &said->r_variables, &said->z_variables,
                           &said->attributes, &said->dimensions, &said->padding };
    int32_t answer = 0;

    for (uint64_t what = TLZ_FILE_MAJORITY; what <= TLZ_FILE_PADDING && answer == 0; what++)
        answer = tlz_read_file(source->file, source->length, what, targets[what]);
    for (int32_t d = 0; answer == 0 && d < said->dimensions && d < MOST_DIMENSIONS; d++)
        answer = tlz_read_dimension(source->file, source->length, d, &said->sizes[d]);
    return answer;
}

static void print_said(const struct source *source, const struct said *said)
{
    const char *majority = said->majority == 1 ? "row" : "column";
    const char *format =
        source->json ? "{\"majority\": \"%s\", \"encoding\": %" PRId32 ", \"encoding_name\": \"%s\", "
                       "\"r_variable_count\": %" PRId32 ", \"z_variable_count\": %" PRId32 ", \"attribute_count\": %" PRId32 ", \"r_dimensions\": ["
                     : "majority    %s\nencoding    %" PRId32 " (%s)\nrVariables  %" PRId32 "\nzVariables  %" PRId32
                       "\nattributes  %" PRId32 "\nrDimensions";

    printf(format, majority, said->encoding, words_of_encoding(said->encoding), said->r_variables, said->z_variables,
           said->attributes);
    for (int32_t d = 0; d < said->dimensions; d++)
        printf("%s%" PRId32, source->json && d > 0 ? ", " : source->json ? "" : " ", said->sizes[d]);
    if (source->json)
        printf("], \"padding\": %" PRId32 ",\n", said->padding);
    else
        printf("%s\n", said->dimensions > 0 ? "" : " none");
    if (!source->json && said->padding > 0)
        printf("padding     %" PRId32 " byte%s\n", said->padding, said->padding == 1 ? "" : "s");
}

/* The listing of a whole file. */
static void list_file(struct source *source)
{
    struct said said = { 0 };
    int32_t answer = read_said(source, &said);
    bool any = false;

    if (source_refused(source, answer)) {
        print_refusal(source, answer, ", \"padding\": null");
        printf("%s", source->json ? "\n" : "");
        return;
    }
    print_said(source, &said);
    printf("%s", source->json ? " \"variables\": [" : "");
    any = list_variables(source, TLZ_RVARIABLE, said.r_variables, false);
    list_variables(source, TLZ_ZVARIABLE, said.z_variables, any);
    printf("%s", source->json ? "],\n \"attributes\": [" : "");
    list_attributes(source, said.attributes);
    printf("%s", source->json ? "]}\n" : "");
}

/* A number of the command line; ends the program if it is none. */
static int64_t number_of(const char *word)
{
    uint64_t number = 0;

    if (!text_number(word, &number) || number > INT64_MAX)
        options_fail(&program, "not a number", word);
    return (int64_t)number;
}

/* The values that the words behind the file's name ask for. */
static void list_values(struct source *source, int count, char **words)
{
    struct variable variable;
    int32_t answer = variable_read(source, words[0][0] == 'r' ? TLZ_RVARIABLE : TLZ_ZVARIABLE, number_of(words[1]), &variable);

    if (source_refused(source, answer)) {
        print_refusal(source, answer, "");
        printf("%s", source->json ? "\n" : "");
        return;
    }
    for (int i = 2; i < count; i++)
        variable_record(source, &variable, number_of(words[i]));
    if (count == 2)
        variable_records(source, &variable);
}

/* The words behind the file's name can be read: none, or r|z NUMBER [RECORD]..; ends the program if not. */
static void check_words(int count, char **words)
{
    if (count > 0 && strcmp(words[0], "r") != 0 && strcmp(words[0], "z") != 0)
        options_fail(&program, "neither r nor z", words[0]);
    if (count == 1)
        options_fail(&program, "no number of a variable", NULL);
    for (int i = 1; i < count; i++)
        number_of(words[i]);
}

int main(int count, char **words)
{
    struct options options;
    struct input input;
    int first = options_read(count, words, &program, &options);
    const char *why = NULL;

    if (first >= count)
        options_fail(&program, "no file is named", NULL);
    if (options.look && first + 1 < count)
        options_fail(&program, "--at takes a file and no more words", words[first + 1]);
    check_words(count - first - 1, words + first + 1);
    why = input_read(words[first], &input);
    if (why != NULL) {
        console_complain(words[first], "cannot be read", why);
        return 2;
    }
    struct source source = { .file = input.bytes, .length = input.length, .json = options.json };
    if (options.look)
        source.cut = !look_at(&source, options.at);
    else if (first + 1 < count)
        list_values(&source, count - first - 1, words + first + 1);
    else
        list_file(&source);
    if (source.reserved && !source.json)
        print_refusal(&source, TLZ_RESERVED_OPERAND, "");
    input_free(&input);
    return console_trouble() ? 2 : source.refused != 0 || source.reserved || source.cut;
}
