/*
 * Runs the job in the file given with a budget of 1,000,000 steps and prints, as the command program does:
 * `shortest`, length, steps; or `stopped`, length or `-`, steps; or `none`, steps; or `refused`, number. A
 * layout follows, an entry a line: type, column, row, turn. A second argument is the margin that the clamps
 * need at each edge of the sheet; without it there are no clamps.
 *
 * With --keep the bytes of that layout are written to a file too; where there is none, the file is neither created
 * nor changed. With --from the run begins from the layout in such a file; an empty one gives none. So a run that
 * stopped with a layout is carried across to the next one, also from an earlier version of the engine.
 *
 * With --save it runs nothing, but writes the job to another file as the engine saves it, and prints `saved` and
 * the number of bytes; or `refused` and number, and then that file is neither created nor changed.
 *
 * With --cut it takes no job, but cuts the outline in the file given into triangles, and prints `cut` and their
 * number; or `refused` and number. The triangles follow, one a line: x and y of the corner that was cut off, of its
 * successor and of its predecessor.
 * usage: nest [--from LAYOUT] [--keep FILE] JOB [MARGIN]
 *        nest --save FILE JOB
 *        nest --cut OUTLINE
 */
#include <errno.h>
#include <inttypes.h>
#include <stdio.h>
#include <string.h>

#include "nest.h"

#define BUDGET 1000000

/* One byte more than a job may have, so that a longer file is seen to be too long. */
static uint8_t job[NEST_MAX_JOB_BYTES + 1];
/* One number more than a layout may have, for the same reason: a single byte would not count. */
static uint8_t layout[NEST_MAX_LAYOUT_BYTES + NEST_NUMBER_BYTES];
static uint8_t work[NEST_MAX_WORK_BYTES];
static uint8_t answer[NEST_MAX_LAYOUT_BYTES];
static uint8_t content[NEST_MAX_READ_BYTES];
static uint8_t saved[NEST_MAX_SAVE_BYTES];
/* One byte more than an outline may have: left over, it is refused. */
static uint8_t outline[NEST_MAX_OUTLINE_BYTES + 1];
static uint8_t triangles[NEST_CUT_BYTES];

static unsigned number_at(const uint8_t *buffer, size_t index)
{
    return buffer[2 * index] + 256u * buffer[2 * index + 1];
}

/* A negative number is written as 65,536 plus it. */
static long signed_at(const uint8_t *buffer, size_t index)
{
    long number = (long)number_at(buffer, index);

    return number < 32768 ? number : number - 65536;
}

/* N is the last number that read writes. */
static unsigned pieces_of(size_t job_len)
{
    uint64_t result = nest_read(job, job_len, content, sizeof content);
    unsigned count = NEST_COUNT(result);

    return count == 0 ? 0 : number_at(content, count - 1);
}

static void print_layout(unsigned pieces)
{
    unsigned i;

    for (i = 0; i < pieces; i++) {
        size_t entry = (size_t)NEST_ENTRY_NUMBERS * i;

        printf("%u %u %u %u\n", number_at(answer, entry), number_at(answer, entry + 1),
               number_at(answer, entry + 2), number_at(answer, entry + 3));
    }
}

/* Whether the answer numbers of a run hold a layout. */
static int holds_layout(uint64_t result)
{
    return NEST_NUMBER(result) == NEST_OK && NEST_VERDICT(result) != NEST_STOPPED_WITH_NOTHING;
}

static void print_result(uint64_t result, size_t job_len)
{
    uint32_t steps = NEST_STEPS(result);

    if (NEST_NUMBER(result) == NEST_NONE) {
        printf("none %" PRIu32 "\n", steps);
    } else if (NEST_NUMBER(result) != NEST_OK) {
        printf("refused %u\n", NEST_NUMBER(result));
    } else if (!holds_layout(result)) {
        printf("stopped - %" PRIu32 "\n", steps);
    } else {
        const char *verdict = NEST_VERDICT(result) == NEST_ENDED ? "shortest" : "stopped";

        printf("%s %u %" PRIu32 "\n", verdict, NEST_LENGTH(result), steps);
        print_layout(pieces_of(job_len));
    }
}

/* The file's bytes, or as many of them as there is room for. */
static int read_file(const char *path, uint8_t *bytes, size_t room, size_t *length)
{
    FILE *file = fopen(path, "rb");
    int failed;

    if (file == NULL)
        return 0;
    *length = fread(bytes, 1, room, file);
    failed = ferror(file);
    fclose(file);
    return !failed;
}

/* What is written may reach the file, or fail to, no sooner than it is closed. */
static int write_file(const char *path, const uint8_t *bytes, size_t length)
{
    FILE *file = fopen(path, "wb");
    int written;

    if (file == NULL)
        return 0;
    written = fwrite(bytes, 1, length, file) == length;
    return fclose(file) == 0 && written;
}

/* Digits alone, of a number that 64 bits hold; whether it is a margin is for the engine to say. */
static int read_margin(const char *text, uint64_t *margin)
{
    uintmax_t number;

    if (text[0] == '\0' || text[strspn(text, "0123456789")] != '\0')
        return 0;
    errno = 0;
    number = strtoumax(text, NULL, 10);
    *margin = (uint64_t)number;
    return errno == 0 && number <= UINT64_MAX;
}

/* A file that fails is told and has an exit status of its own; a refused job is an answer and has none. */
static int file_failed(const char *path)
{
    perror(path);
    return 2;
}

static int usage(void)
{
    fprintf(stderr, "usage: nest [--from LAYOUT] [--keep FILE] JOB [MARGIN]\n"
                    "       nest --save FILE JOB\n"
                    "       nest --cut OUTLINE\n");
    return 2;
}

/* What a run is asked for; without --from and --keep the first two are null. */
struct request {
    const char *from, *keep, *job;
    uint64_t margin;
};

/* The words behind the program's name, up to the null pointer. */
static int read_request(char **words, struct request *request)
{
    memset(request, 0, sizeof *request);
    for (; words[0] != NULL && words[1] != NULL; words += 2) {
        if (strcmp(words[0], "--from") == 0)
            request->from = words[1];
        else if (strcmp(words[0], "--keep") == 0)
            request->keep = words[1];
        else
            break;
    }
    request->job = words[0];
    if (words[0] == NULL || strncmp(words[0], "--", 2) == 0)
        return 0;
    return words[1] == NULL || (words[2] == NULL && read_margin(words[1], &request->margin));
}

static int run_job(const struct request *request)
{
    size_t job_len, layout_len = 0;
    uint64_t result;

    if (!read_file(request->job, job, sizeof job, &job_len))
        return file_failed(request->job);
    if (request->from != NULL && !read_file(request->from, layout, sizeof layout, &layout_len))
        return file_failed(request->from);
    result = nest_run(job, job_len, request->margin, BUDGET, layout, layout_len, work, sizeof work, answer,
                      sizeof answer);
    print_result(result, job_len);
    if (request->keep != NULL && holds_layout(result) &&
        !write_file(request->keep, answer, NEST_LAYOUT_BYTES(pieces_of(job_len))))
        return file_failed(request->keep);
    return 0;
}

/* Whether the result of a service other than run is a refusal, which is then printed. */
static int told_refusal(uint64_t result)
{
    if (NEST_NUMBER(result) == NEST_OK)
        return 0;
    printf("refused %u\n", NEST_NUMBER(result));
    return 1;
}

static int save_job(const char *target, const char *path)
{
    size_t job_len;
    uint64_t result;

    if (!read_file(path, job, sizeof job, &job_len))
        return file_failed(path);
    result = nest_save(job, job_len, saved, sizeof saved);
    if (told_refusal(result))
        return 0;
    if (!write_file(target, saved, NEST_COUNT(result)))
        return file_failed(target);
    printf("saved %u\n", NEST_COUNT(result));
    return 0;
}

/* The numbers of a triangle on a line of their own. */
static void print_triangle(size_t first)
{
    size_t i;

    for (i = 0; i < NEST_TRIANGLE_NUMBERS; i++)
        printf(i == 0 ? "%ld" : " %ld", signed_at(triangles, first + i));
    printf("\n");
}

static int cut_outline(const char *path)
{
    size_t outline_len;
    uint64_t result;
    unsigned i;

    if (!read_file(path, outline, sizeof outline, &outline_len))
        return file_failed(path);
    result = nest_cut(outline, outline_len, triangles, sizeof triangles);
    if (told_refusal(result))
        return 0;
    printf("cut %u\n", NEST_COUNT(result));
    for (i = 0; i < NEST_COUNT(result); i++)
        print_triangle((size_t)NEST_TRIANGLE_NUMBERS * i);
    return 0;
}

int main(int argc, char **argv)
{
    struct request request;

    if (argc >= 2 && strcmp(argv[1], "--save") == 0)
        return argc == 4 ? save_job(argv[2], argv[3]) : usage();
    if (argc >= 2 && strcmp(argv[1], "--cut") == 0)
        return argc == 3 ? cut_outline(argv[2]) : usage();
    if (argc < 2 || !read_request(argv + 1, &request))
        return usage();
    return run_job(&request);
}
