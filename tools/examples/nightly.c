/* nightly ROUNDS FILE..: checks up to eight owners' files by turns, 1000 steps each a round, for so many rounds. */
#include <inttypes.h>
#include <stdio.h>
#include <stdlib.h>
#include <tlepozaluh.h>

/* One area for the files and one for their marks, neither null where it is empty, and a row for each file. */
struct night {
    uint8_t *files, *marks;
    size_t length; /* of both areas */
    tlz_job jobs[TLZ_MOST_JOBS];
    size_t count;
};

/* Reads a file into the area, behind those that are there. Gives its length, or -1 if it cannot be read or has grown. */
static long append(struct night *night, FILE *in)
{
    long length = fseek(in, 0, SEEK_END) == 0 ? ftell(in) : -1;
    uint8_t *longer = NULL;

    if (length < 0 || length > TLZ_LONGEST_FILE)
        return -1;
    longer = realloc(night->files, night->length + (size_t)length + 1);
    if (longer == NULL)
        return -1;
    night->files = longer;
    rewind(in);
    if (fread(longer + night->length, 1, (size_t)length, in) != (size_t)length)
        return -1;
    return fgetc(in) == EOF && !ferror(in) ? length : -1; /* more bytes: they were not there at first */
}

/* A fresh row for a file, with the same part of both areas. Gives 0 if there is one. */
static int add(struct night *night, uint32_t owner, const char *name)
{
    FILE *in = fopen(name, "rb");
    long length = in != NULL ? append(night, in) : -1;
    size_t from = night->length;

    if (in != NULL)
        fclose(in);
    if (length < 0) {
        printf("unchecked %s\n", name);
        return 1;
    }
    tlz_job job = { owner, TLZ_RUNNING, from, (size_t)length, from, (size_t)length, { 0 } };
    tlz_check_begin(job.state, TLZ_STATE_LEN);
    night->jobs[night->count++] = job;
    night->length += (size_t)length;
    return 0;
}

/*
 * Accepted is 0 and nothing else; -1 is no verdict; 20 and 21 speak of the state and not of the file. A grant of 0 says a
 * refusal's location. Gives 0 if the file is accepted.
 */
static int report(const struct night *night, tlz_job *job, const char *name)
{
    const char *word = "refused";
    uint64_t steps = 0, where = 0;

    if (job->answer == TLZ_ACCEPTED)
        word = "accepted";
    else if (job->answer == TLZ_RUNNING)
        word = "unfinished";
    else if (job->answer == TLZ_BAD_STATE || job->answer == TLZ_OTHER_FILE)
        word = "unchecked";
    tlz_check_grant(night->files + job->file_from, job->file_len, night->marks + job->marks_from, job->marks_len, job->state,
                    TLZ_STATE_LEN, 0, &steps, &where);
    printf("%s %" PRId32 " %s", word, job->answer, name);
    if (where != 0)
        printf(", record at %" PRIu64, where);
    printf("\n");
    return job->answer != TLZ_ACCEPTED;
}

int main(int count, char **words)
{
    long rounds = count > 1 ? strtol(words[1], NULL, 10) : 0;
    int32_t answer = TLZ_RUNNING;
    int not_accepted = count < 3;
    struct night night = { 0 };

    if (count - 2 > TLZ_MOST_JOBS) {
        fprintf(stderr, "nightly: at most %d files\n", TLZ_MOST_JOBS);
        return 2;
    }
    night.files = malloc(1);
    for (int i = 2; i < count; i++)
        not_accepted |= add(&night, (uint32_t)i, words[i]); /* an owner's number: which word names the file */
    night.marks = malloc(night.length + 1);
    if (night.files == NULL || night.marks == NULL)
        return 2;
    for (long round = 0; round < rounds && answer == TLZ_RUNNING; round++)
        answer = tlz_round(night.files, night.length, night.marks, night.length, night.jobs, night.count, 1000);
    if (answer != TLZ_RUNNING)
        fprintf(stderr, "nightly: the round was refused with %" PRId32 "\n", answer);
    for (size_t i = 0; i < night.count && answer == TLZ_RUNNING; i++)
        not_accepted |= report(&night, &night.jobs[i], words[night.jobs[i].owner]);
    free(night.files);
    free(night.marks);
    return answer == TLZ_RUNNING ? not_accepted : 2;
}
