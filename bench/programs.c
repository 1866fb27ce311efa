/* Runs whole programs: places on a million lines of random patterns from a file, and cat on that file and on what places prints, the
 * output to /dev/null. */
#define _POSIX_C_SOURCE 200809L
#include "programs.h"

#include <fcntl.h>
#include <inttypes.h>
#include <stdio.h>
#include <sys/wait.h>
#include <unistd.h>

#include "operands.h"
#include "timing.h"

enum { LINES = 1000000, RUNS = 15 };

static const char lines_path[] = "target/bench/lines", printed_path[] = "target/bench/printed";

typedef struct job {
    const char *name, *program, *input;
} job;

static const job jobs[] = {
    {"places", "crates/places/out/places", lines_path},
    {"cat of its input", "cat", lines_path},
    {"cat of its output", "cat", printed_path},
};
enum { JOBS = sizeof jobs / sizeof *jobs };

static int write_lines(void) {
    FILE *file = fopen(lines_path, "w");
    if (file == NULL)
        return 0;
    for (int i = 0; i < LINES; i++)
        fprintf(file, "%08" PRIx32 "\n", random32());
    return fclose(file) == 0;
}

static void become(const job *what, const char *output) {
    int in = open(what->input, O_RDONLY), out = open(output, O_WRONLY | O_CREAT | O_TRUNC, 0644);
    if (in < 0 || out < 0 || dup2(in, 0) < 0 || dup2(out, 1) < 0)
        _exit(126);
    execlp(what->program, what->program, (char *)0);
    _exit(127);
}

/* One run in nanoseconds, or a negative number. */
static double run(const job *what, const char *output) {
    int status = 0;
    double start = now_ns();
    pid_t child = fork();
    if (child == 0)
        become(what, output);
    if (child < 0 || waitpid(child, &status, 0) != child || status != 0)
        return -1;
    return now_ns() - start;
}

int time_programs(void) {
    double times[JOBS][RUNS];
    timed results[JOBS];
    if (!write_lines() || run(&jobs[0], printed_path) < 0)
        return 0;
    for (int r = 0; r < RUNS; r++) {
        for (int j = 0; j < JOBS; j++) {
            times[j][r] = run(&jobs[j], "/dev/null");
            if (times[j][r] < 0)
                return 0;
        }
    }
    printf("\n| a million lines | ms | median | ns a line |\n|---|---|---|---|\n");
    for (int j = 0; j < JOBS; j++) {
        results[j] = summary(times[j], RUNS);
        printf("| %s | %.1f | %.1f | %.1f |\n", jobs[j].name, results[j].best / 1e6, results[j].median / 1e6, results[j].best / LINES);
    }
    printf("\nplaces / cat of its input: %.1f, of its output: %.1f\n", results[0].best / results[1].best,
           results[0].best / results[2].best);
    return 1;
}
