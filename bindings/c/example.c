/* Three samples of two channels: their table and its axes, then their job text and its report, samples that are no job, and a job that is
   refused; then some calls, and a load of strong samples; last, all panels of size 1, the first and the last of them, and one that is none. It
   prints what example.out has. At the repository's root:
   .ci/staticlib && cc -o target/example bindings/c/example.c target/staticlib/libfield_axes.a && target/example */
#include "field_axes.h"
#include <stdio.h>
#include <string.h>

static const uint32_t dilutions[] = {1, 5, 1};
static const uint32_t counts[] = {0, 0, 1, 0, 5, 5};

/* The entries of the table of three samples go into `entries`. */
static int tabulate(int64_t entries[4]) {
    int64_t out[FIELD_AXES_MOST_TABLE_NUMBERS];
    int64_t count = field_axes_table(2, dilutions, 3, counts, 6, out, FIELD_AXES_MOST_TABLE_NUMBERS);
    if (count < 0) {
        printf("refused %lld\n", (long long)-count);
        return 1;
    }
    printf("sums %lld %lld %lld %lld, shift %lld\n", (long long)out[1], (long long)out[2], (long long)out[3], (long long)out[4],
           (long long)out[0]);
    memcpy(entries, out + 5, 4 * sizeof *entries);
    return 0;
}

/* At most one sweep, tolerance 0. */
static int solve(const int64_t numbers[4]) {
    int64_t out[FIELD_AXES_MOST_NUMBERS];
    int64_t count = field_axes_solve(2, numbers, 4, 1, 0, out, FIELD_AXES_MOST_NUMBERS);
    if (count < 0) {
        printf("refused %lld\n", (long long)-count);
        return 1;
    }
    const char *outcomes[] = {"settled", "still", "spent"};
    printf("%s after %lld sweeps and %lld turns\n", outcomes[out[0]], (long long)out[1], (long long)out[2]);
    for (int64_t at = 3; at < count; at += 4)
        printf("axis %lld: %lld within %lld; row %lld %lld\n", (long long)(at / 4 + 1), (long long)out[at],
               (long long)out[at + 1], (long long)out[at + 2], (long long)out[at + 3]);
    return 0;
}

static void report(const uint8_t *job, size_t job_length) {
    uint8_t out[FIELD_AXES_MOST_REPORT_BYTES];
    size_t line;
    int64_t length = field_axes_report(job, job_length, out, sizeof out, &line);
    if (length < 0)
        printf("refused %lld at line %zu\n", (long long)-length, line);
    else
        fwrite(out, 1, (size_t)length, stdout);
}

/* At most one sweep, tolerance 0, and the first counts_length counts: the job text and its report. */
static void write_job(size_t counts_length) {
    uint8_t out[FIELD_AXES_MOST_JOB_BYTES];
    int64_t length = field_axes_job(2, 1, 0, dilutions, 3, counts, counts_length, out, sizeof out);
    if (length < 0) {
        printf("refused %lld\n", (long long)-length);
        return;
    }
    fwrite(out, 1, (size_t)length, stdout);
    report(out, (size_t)length);
}

static int play(const char *calls) {
    uint8_t out[3 * FIELD_AXES_MOST_ANSWER_BYTES];
    int64_t length = field_axes_calls((const uint8_t *)calls, strlen(calls), out, sizeof out);
    if (length < 0)
        return 1;
    fwrite(out, 1, (size_t)length, stdout);
    return 0;
}

static int list_panels(void) {
    static uint8_t out[FIELD_AXES_MOST_PANELS_BYTES];
    int64_t length = field_axes_panels(1, out, sizeof out);
    if (length < 0)
        return 1;
    fwrite(out, 1, (size_t)length, stdout);
    for (int64_t position = 1; position <= 27; position += 26) {
        int64_t a[3];
        if (field_axes_panel(1, position, a, 3) < 0)
            return 1;
        printf("panel %lld: %lld %lld %lld\n", (long long)field_axes_panel_position(1, a[0], a[1], a[2]), (long long)a[0],
               (long long)a[1], (long long)a[2]);
    }
    printf("refused %lld\n", (long long)-field_axes_panel_position(1, 0, 2, 0));
    return 0;
}

int main(void) {
    int64_t entries[4];
    if (tabulate(entries) || solve(entries))
        return 1;
    write_job(6);
    write_job(5);
    const char *job = "P\t2\t1\t0\nS\t101\t0\t0\n";
    report((const uint8_t *)job, strlen(job));
    return play("L\t1\t2\t50\t25\t25\t50\nT\t2\t1\t2\nA\t3\t1\n") || play("M\t4\t2\t2\t100\t100\t65535\t65535\t0\t0\nA\t1\t1\n") ||
           list_panels();
}
