/* The tasks of growing size: each input of the file that the variable GROWING names, in each way of its kind or in one way. An input is
 * its work, whose name begins with its kind, `:` and its size; its way or `*`; and the number of its octets, with `|` between them,
 * and in the next line these octets.
 */

#include "growing.h"

#include <stdio.h>
#include <stdlib.h>
#include <string.h>

enum { MOST = 1 << 10 };

struct task tasks[MOST];

static void add(const char *work, const char *only, const struct line *record)
{
    static size_t count;
    for (const struct way *way = ways; way->name; way++)
        if (!strncmp(work, way->kind, strlen(way->kind)) && (*only == '*' || !strcmp(only, way->name)) && count + 1 < MOST)
            tasks[count++] = (struct task){.work = work, .way = way->name, .with = way->run, .record = record};
}

void prepare(void)
{
    char work[64], only[32];
    size_t len;
    FILE *file = fopen(getenv("GROWING") ? getenv("GROWING") : "", "rb");
    while (file && fscanf(file, "%63[^|]|%31[^|]|%zu", work, only, &len) == 3) {
        struct line *record = malloc(sizeof *record);
        char *octets = malloc(len + 1);
        if (!record || !octets || fgetc(file) != '\n' || fread(octets, 1, len, file) != len)
            exit(1);
        *record = (struct line){octets, len};
        add(strdup(work), only, record);
    }
    if (!file) {
        fprintf(stderr, "growing: no file GROWING\n");
        exit(1);
    }
    fclose(file);
}
