/* Counts the branches that the model names with HIT, and prints them at the end of the program. */
#include <stdio.h>
#include <stdlib.h>
#include <string.h>

void model_hit(const char *branch);

#define BRANCHES_MOST 256

static struct {
    const char *name;
    unsigned long long hits;
} branches[BRANCHES_MOST];

static void print_branches(void)
{
    const char *name = getenv("COVERAGE_FILE");
    FILE *file = name != NULL ? fopen(name, "w") : NULL;
    unsigned place;

    if (file == NULL) {
        return;
    }
    for (place = 0; place < BRANCHES_MOST && branches[place].name != NULL; place++) {
        fprintf(file, "%llu %s\n", branches[place].hits, branches[place].name);
    }
    fclose(file);
}

void model_hit(const char *branch)
{
    unsigned place;

    if (branches[0].name == NULL) {
        atexit(print_branches);
    }
    for (place = 0; place < BRANCHES_MOST; place++) {
        if (branches[place].name == NULL) {
            branches[place].name = branch;
        }
        if (branches[place].name == branch || strcmp(branches[place].name, branch) == 0) {
            branches[place].hits++;
            return;
        }
    }
    abort();
}
