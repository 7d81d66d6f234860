#define _POSIX_C_SOURCE 200809L

#include "options.h"

#include "console.h"
#include "text.h"
#include "window.h"

#include <getopt.h>
#include <stdio.h>
#include <stdlib.h>
#include <unistd.h>

enum { GRANT = 1, LIMIT, SECONDS, SAVE, RESUME, JSON, QUIET, MARKS, PROGRESS, HELP, VERSION_OF, UNTIL, MEMORY, AT };

static const struct option known[] = {
    { "grant", required_argument, NULL, GRANT },     { "limit", required_argument, NULL, LIMIT },
    { "seconds", required_argument, NULL, SECONDS }, { "save", required_argument, NULL, SAVE },
    { "resume", required_argument, NULL, RESUME },   { "json", no_argument, NULL, JSON },
    { "quiet", no_argument, NULL, QUIET },           { "marks", no_argument, NULL, MARKS },
    { "progress", no_argument, NULL, PROGRESS },     { "help", no_argument, NULL, HELP },
    { "version", no_argument, NULL, VERSION_OF },    { "until", required_argument, NULL, UNTIL },
    { "memory", required_argument, NULL, MEMORY },   { "at", required_argument, NULL, AT },
    { NULL, 0, NULL, 0 },
};

void options_fail(const struct program *program, const char *what, const char *word)
{
    fprintf(stderr, "%s: %s", program->name, what);
    if (word != NULL) {
        fputs(": ", stderr);
        text_name(stderr, word);
    }
    fprintf(stderr, "\nTry %s --help.\n", program->name);
    exit(2);
}

/* Prints a text and ends the program: with 0, or 2 if it could not be printed. */
static _Noreturn void say(const char *first, const char *second)
{
    printf("%s%s", first, second);
    exit(console_trouble() ? 2 : 0);
}

/* An option with a number, word or time; false if it is none of these or its word cannot be read. */
static bool read_value(int option, const char *word, struct options *options)
{
    uint64_t megabytes = 0;

    switch (option) {
    case GRANT:
        return text_number(word, &options->manner.grant) && options->manner.grant > 0;
    case LIMIT:
        return text_number(word, &options->manner.limit);
    case SECONDS:
        return text_seconds(word, &options->seconds);
    case UNTIL:
        return text_hour(word, &options->hour, &options->minute);
    case MEMORY:
        if (!text_number(word, &megabytes) || megabytes > UINT64_MAX >> 20)
            return false;
        options->memory = megabytes << 20;
        return true;
    case AT:
        options->look = true;
        return text_offset(word, &options->at);
    case SAVE:
        options->manner.save = word;
        return word[0] != '\0';
    case RESUME:
        options->manner.resume = word;
        return word[0] != '\0';
    default:
        return false;
    }
}

/* An option without a word; false if it is none. */
static bool read_flag(int option, const struct program *program, struct options *options)
{
    switch (option) {
    case JSON:
        options->json = true;
        return true;
    case QUIET:
        options->quiet = true;
        return true;
    case MARKS:
        options->manner.marks = true;
        return true;
    case PROGRESS:
        options->manner.progress = true;
        return true;
    case HELP:
        say(program->help, "");
    case VERSION_OF:
        printf("%s ", program->name);
        say(VERSION, "\n");
    default:
        return false;
    }
}

/* The program has an option. */
static bool has(const struct program *program, int option)
{
    if (option == JSON || option == HELP || option == VERSION_OF)
        return true;
    if (option == UNTIL || option == MEMORY)
        return program->work == NIGHT;
    if (option == AT)
        return program->work == READ;
    return option != '?' && program->work != READ;
}

/* Begins the window that the options describe. */
static void open_window(const struct options *options)
{
    window_begin();
    if (options->seconds >= 0)
        window_for(options->seconds);
    if (options->hour >= 0)
        window_until(options->hour, options->minute);
}

int options_read(int count, char **words, const struct program *program, struct options *options)
{
    int option = 0;

    *options = (struct options){ .manner = { .grant = 100000, .limit = UINT64_MAX },
                                 .seconds = -1,
                                 .hour = -1,
                                 .memory = UINT64_C(1) << 30 };
    opterr = 0;
    while ((option = getopt_long(count, words, "", known, NULL)) != -1) {
        if (!has(program, option))
            options_fail(program, "cannot read this option, or it lacks its word", words[optind - 1]);
        if (!read_flag(option, program, options) && !read_value(option, optarg, options))
            options_fail(program, "an option cannot have this word", optarg);
    }
    options->manner.terminal = isatty(STDERR_FILENO) && !options->quiet;
    if (program->work != READ)
        open_window(options);
    return optind;
}
