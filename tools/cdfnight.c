/* Checks all files below a folder by turns, in a window of time; man/cdfnight.1 describes it. */
#include "console.h"
#include "job.h"
#include "listing.h"
#include "night.h"
#include "options.h"
#include "print.h"

#include <inttypes.h>
#include <stdio.h>

static const char help[] =
    "Usage: cdfnight [OPTION].. DIR\n"
    "Checks all files below DIR by turns, in rounds of up to eight files with the same number of steps each, until all are done\n"
    "or the window is over; then reports which are accepted, refused, unfinished and unchecked. One line a file: outcome, number,\n"
    "steps granted, time, name.\n"
    "\n"
    "  --until HH:MM  the window is over when the local clock next shows this time\n"
    "  --seconds S    the window is over after S seconds\n"
    "  --grant N      N steps a turn (100000)\n"
    "  --limit N      at most N steps a file in this run\n"
    "  --memory MB    files and marks held at a time (1024), or as much as the longest file needs; others wait for room\n"
    "  --save DIR     keep unfinished checks in DIR\n"
    "  --resume DIR   go on with the checks that are kept in DIR\n"
    "  --json         a JSON object a file, then one with the counts\n"
    "  --quiet        no lines for accepted files, no progress\n"
    "  --marks        marks are AA hex at first; show the FNV-1a sum of the marks at the end\n"
    "  --progress     show where the checks stand after every round, also if standard error is no terminal\n"
    "  --help         this text\n"
    "  --version      the version\n"
    "\n"
    "Exit status: 0 all files were checked to their end and accepted; 1 a file was refused; 2 a file could not be checked,\n"
    "there is none, or the command line is wrong; 3 a check is unfinished. Of several, 2 is given before 1 and 1 before 3.\n";

static const struct program program = { "cdfnight", help, NIGHT };

/* The files of one outcome under its heading. */
static void section(const struct night *night, const struct options *options, enum outcome outcome, uint64_t count)
{
    static const char *const headings[OUTCOMES] = {
        "Accepted: checked to the end, every rule kept",
        "Refused",
        "Unfinished: no verdict, not verified",
        "Unchecked: could not be checked, not verified",
    };

    if (!options->json && count > 0)
        printf("%s (%" PRIu64 ")\n", headings[outcome], count);
    for (size_t i = 0; i < night->count; i++) {
        const struct job *job = &night->files[i].job;
        if (job->outcome != outcome || (options->quiet && outcome == ACCEPTED))
            continue;
        if (options->json) {
            print_json(job, "granted", options->manner.marks);
        } else {
            printf("  ");
            print_line(job, "granted", options->manner.marks);
        }
    }
}

/* The report; gives the exit status. */
static int report(const struct night *night, const struct options *options)
{
    uint64_t counts[OUTCOMES] = { 0 };

    console_clear();
    for (size_t i = 0; i < night->count; i++)
        counts[night->files[i].job.outcome]++;
    for (enum outcome outcome = ACCEPTED; outcome < OUTCOMES; outcome++)
        section(night, options, outcome, counts[outcome]);
    printf(options->json ? "{\"files\": %zu" : "%zu files", night->count);
    for (enum outcome outcome = ACCEPTED; outcome < OUTCOMES; outcome++) {
        if (options->json)
            printf(", \"%s\": %" PRIu64, job_word(outcome), counts[outcome]);
        else
            printf("%s %" PRIu64 " %s", outcome == ACCEPTED ? ":" : ",", counts[outcome], job_word(outcome));
    }
    printf(options->json ? "}\n" : "\n");
    return job_status(counts);
}

int main(int count, char **words)
{
    struct options options;
    struct night night = { 0 };
    int first = options_read(count, words, &program, &options);
    int status = 2;

    if (first + 1 != count)
        options_fail(&program, "name one folder", NULL);
    night.files = listing_of(words[first], &night.count);
    if (night.files != NULL && night.count == 0)
        console_complain(words[first], "nothing to check", "there is no file in it");
    if (night.files != NULL && night.count > 0) {
        night_run(&night, &options.manner, options.memory);
        listing_sort(night.files, night.count);
        status = report(&night, &options);
    }
    listing_free(night.files, night.count);
    return console_trouble() ? 2 : status;
}
