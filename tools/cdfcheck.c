/* Checks CDF files, one after the other; man/cdfcheck.1 describes it. */
#include "console.h"
#include "job.h"
#include "options.h"
#include "print.h"
#include "window.h"

static const char help[] =
    "Usage: cdfcheck [OPTION].. FILE..\n"
    "Checks CDF files (single file, uncompressed, versions 2.6 and 2.7). One line a file: outcome, number, steps, time, name.\n"
    "\n"
    "  --grant N      N steps at a time (100000)\n"
    "  --limit N      at most N steps a file in this run; what is not done then is unfinished\n"
    "  --seconds S    stop after S seconds; what is not done then is unfinished\n"
    "  --save DIR     keep unfinished checks in DIR\n"
    "  --resume DIR   go on with the checks that are kept in DIR\n"
    "  --json         a JSON object a line\n"
    "  --quiet        no lines for accepted files, no progress\n"
    "  --marks        marks are AA hex at first; show the FNV-1a sum of the marks at the end\n"
    "  --progress     show where a check stands after every grant, also if standard error is no terminal\n"
    "  --help         this text\n"
    "  --version      the version\n"
    "\n"
    "Exit status: 0 all files were checked to their end and accepted; 1 a file was refused; 2 a file could not be checked,\n"
    "or the command line is wrong; 3 a check is unfinished. Of several, 2 is given before 1 and 1 before 3.\n";

static const struct program program = { "cdfcheck", help, CHECK };

/* Checks a file as long as the window is open. */
static void check(struct job *job, const struct options *options)
{
    struct area area = { .most = 1 };

    if (window_over())
        return;
    job_open(job, &options->manner, &area);
    while (job->open && !window_over())
        job_grant(job, &options->manner);
    job_close(job, &options->manner);
    area_free(&area);
}

static void print(const struct job *job, const struct options *options)
{
    console_clear();
    if (options->quiet && job->outcome == ACCEPTED)
        return;
    if (options->json)
        print_json(job, "steps", options->manner.marks);
    else
        print_line(job, "steps", options->manner.marks);
}

int main(int count, char **words)
{
    struct options options;
    uint64_t counts[OUTCOMES] = { 0 };
    int first = options_read(count, words, &program, &options);

    if (first >= count)
        options_fail(&program, "no file is named", NULL);
    for (int i = first; i < count; i++) {
        struct job job;
        job_wait(&job, words[i]);
        check(&job, &options);
        print(&job, &options);
        counts[job.outcome]++;
    }
    return console_trouble() ? 2 : job_status(counts);
}
