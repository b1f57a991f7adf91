/* Times the tasks of one library. README.md says what they are.
 *
 *     tasks LIBRARY               prints for each task the library, the work, the way, nanoseconds and octets, separated by `|`
 *     tasks LIBRARY -n N TASK     does one of them N times, counted from 0, for an instruction counter
 *
 * With COUNT_INSTRUCTIONS defined, the rows have instructions (counter.h) instead.
 */

#include "tasks.h"

#include "../counter.h"

#include <stdio.h>
#include <stdlib.h>
#include <string.h>
#include <time.h>

static unsigned digit(char c)
{
    return c <= '9' ? (unsigned)(c - '0') : (unsigned)(c - 'a' + 10);
}

struct input load_input(const char *workload)
{
    static char digits[1 << 18];
    char found[16], sum[32];
    FILE *file = fopen(getenv("INPUTS") ? getenv("INPUTS") : "", "r");
    while (file && fscanf(file, "%15s %31s %262143s", found, sum, digits) == 3)
        if (!strcmp(found, workload)) {
            size_t len = strlen(digits) / 2;
            uint8_t *octets = malloc(len);
            for (size_t i = 0; octets && i < len; i++)
                octets[i] = (uint8_t)(digit(digits[2 * i]) << 4 | digit(digits[2 * i + 1]));
            fclose(file);
            return (struct input){octets, len};
        }
    fprintf(stderr, "tasks: INPUTS has no message %s\n", workload);
    exit(1);
}

void make_query(uint8_t query[W2_QUESTION], const struct input *w2)
{
    memcpy(query, w2->octets, W2_QUESTION);
    memcpy(query + 2, (const uint8_t[]){1, 0, 0, 1, 0, 0, 0, 0, 0, 0}, 10);
}

/* Does a task `times` times. Returns what it returns the last time. */
static size_t run(const struct task *task, uint64_t times)
{
    size_t len = 0;
    if (task->often)
        return task->often(times);
    if (task->with)
        return task->with(task->record, times);
    for (uint64_t n = 0; n < times; n++)
        len = task->one();
    return len;
}

/* Ends with a message if the task failed. */
static size_t checked(const struct task *task, size_t len)
{
    if (len == 0) {
        fprintf(stderr, "tasks: %s, %s failed\n", task->work, task->way);
        exit(1);
    }
    return len;
}

/* The processor time in nanoseconds, which other work on the machine affects less. */
static double now(void)
{
    struct timespec t;
    clock_gettime(CLOCK_PROCESS_CPUTIME_ID, &t);
    return (double)t.tv_sec * 1e9 + (double)t.tv_nsec;
}

#ifdef COUNT_INSTRUCTIONS

static void report(const char *library, const struct task *task)
{
    if (task->uncounted)
        return;
    double start = now();
    checked(task, run(task, 1));
    uint64_t few = now() - start > 10e6 ? 1 : 32;
    for (uint64_t times = few; times <= 2 * few; times += few) {
        start_row(library, task->work, task->way, times);
        run(task, times);
        end_row();
    }
}

#else

/* How many times the task has to be done to take some 10 ms. */
static uint64_t times_for(const struct task *task)
{
    for (uint64_t times = 1;; times *= 2) {
        double start = now();
        run(task, times);
        if (now() - start > 10e6)
            return times;
    }
}

/* The least time of one, of as many timings as the variable TIMINGS says. */
static double least(const struct task *task)
{
    double found = 1e300;
    uint64_t times = times_for(task);
    for (int i = getenv("TIMINGS") ? atoi(getenv("TIMINGS")) : 50; i > 0; i--) {
        double start = now();
        run(task, times);
        double taken = (now() - start) / (double)times;
        if (taken < found)
            found = taken;
    }
    return found;
}

static void report(const char *library, const struct task *task)
{
    size_t len = checked(task, run(task, 1));
    printf("%s|%s|%s|%.1f|%zu\n", library, task->work, task->way, least(task), len);
    fflush(stdout);
}

#endif

int main(int argc, char **argv)
{
    if (argc != 2 && !(argc == 5 && !strcmp(argv[2], "-n"))) {
        fprintf(stderr, "tasks: LIBRARY, or LIBRARY -n N TASK\n");
        return 2;
    }
    prepare();
    if (argc == 5)
        return run(&tasks[atoi(argv[4])], strtoull(argv[3], NULL, 10)) == 0;
    for (const struct task *task = tasks; task->work; task++)
        report(argv[1], task);
    return 0;
}
