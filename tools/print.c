#include "print.h"

#include "text.h"

#include <inttypes.h>
#include <stdio.h>

void print_line(const struct job *job, const char *counted, bool marks)
{
    char number[16] = "-";

    if (job->number != NO_NUMBER)
        snprintf(number, sizeof number, "%" PRId32, job->number);
    printf("%-10s %2s %9" PRIu64 " %s %8.3f s  ", job_word(job->outcome), number, job->steps, counted, job->seconds);
    if (marks)
        printf("marks %016" PRIx64 "  ", job->marks_sum);
    text_name(stdout, job->path);
    if (job->padding > 0)
        printf(" (%" PRId32 " byte%s of padding)", job->padding, job->padding == 1 ? "" : "s");
    printf("%s%s", job->why[0] == '\0' ? "" : ": ", job->why);
    if (job->location != 0)
        printf(": %s at 0x%" PRIx64 " (%" PRIu64 ")", job->record, job->location, job->location);
    printf("\n");
}

/* A number as a member of a JSON object, or null where it is the one that stands for none. */
static void print_number(const char *name, int32_t number, int32_t none)
{
    if (number == none)
        printf(", \"%s\": null", name);
    else
        printf(", \"%s\": %" PRId32, name, number);
}

/* The location of a refusal, in both forms, and what stands there. */
static void print_location(const struct job *job)
{
    if (job->location == 0)
        printf(", \"place\": null, \"place_hex\": null, \"record\": null");
    else
        printf(", \"place\": %" PRIu64 ", \"place_hex\": \"0x%" PRIx64 "\", \"record\": \"%s\"", job->location, job->location,
               job->record);
}

void print_json(const struct job *job, const char *counted, bool marks)
{
    printf("{\"file\": ");
    if (!text_json(stdout, job->path)) {
        printf(", \"file_hex\": \"");
        text_hex(stdout, job->path);
        printf("\"");
    }
    printf(", \"result\": \"%s\"", job_word(job->outcome));
    print_number("number", job->number, NO_NUMBER);
    printf(", \"words\": ");
    text_json(stdout, job->why);
    print_location(job);
    printf(", \"%s\": %" PRIu64 ", \"steps_before\": %" PRIu64, counted, job->steps, job->before);
    printf(", \"seconds\": %.6f", job->seconds);
    print_number("padding", job->padding, NO_PADDING);
    if (marks)
        printf(", \"marks\": \"%016" PRIx64 "\"", job->marks_sum);
    printf("}\n");
}
