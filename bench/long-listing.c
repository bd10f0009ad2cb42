/*
 * Writes a port listing of any length to standard output.
 *
 *   long-listing packed|random SLICES CLOCKS [SEED]
 *   long-listing packed SLICES CLOCKS SEED MATCH
 *
 * Every clock of it is accepted. The same words give the same listing. With MATCH, a clock from 1, the N line names the top
 * slice, which shows PATTERNDETECT in that clock and in no other; where MATCH is CLOCKS or more, in none.
 */
#include "scene.h"

#include <inttypes.h>
#include <stdio.h>
#include <stdlib.h>
#include <string.h>

static void print_line(char tag, const uint64_t *words, size_t count)
{
    char line[512], digits[20];
    size_t length = 0;
    line[length++] = tag;
    for (size_t i = 0; i < count; i++) {
        uint64_t rest = words[i];
        size_t n = 0;
        do
            digits[n++] = (char)('0' + rest % 10);
        while ((rest /= 10) != 0);
        line[length++] = '\t';
        while (n)
            line[length++] = digits[--n];
    }
    line[length++] = '\n';
    fwrite(line, 1, length, stdout);
}

/* No packed sum: those of 24 terms are below 2^37 on either side of 0, so bits 46 and 47 of them are the same. */
#define PATTERN_OF_MATCH (UINT64_C(1) << 46)
#define OPMODE_C 12

/* By this line P loads the pattern. */
static void print_match(const uint64_t *ports)
{
    uint64_t changed[DSP_PORT_WORDS];
    memcpy(changed, ports, sizeof changed);
    changed[DSP_PORT_OPMODE] = OPMODE_C;
    changed[DSP_PORT_C] = PATTERN_OF_MATCH;
    print_line('P', changed, DSP_PORT_WORDS);
}

/* What P loads in a clock shows in the next: the line for a match stands in the clock before it. */
static void print_clocks(struct scene *scene, unsigned long clocks, unsigned long match)
{
    for (unsigned long t = 0; t < clocks; t++) {
        if (t && t % SCENE_CLOCKS == 0)
            redraw_ports(scene);
        for (size_t k = 0; k < scene->count; k++) {
            const uint64_t *ports = scene->ports[t % SCENE_CLOCKS] + DSP_PORT_WORDS * k;
            if (t + 1 == match && k + 1 == scene->count)
                print_match(ports);
            else
                print_line('P', ports, DSP_PORT_WORDS);
        }
    }
}

/* Without a match the N line names no slice. */
static void print_settings(struct scene *scene, unsigned long match)
{
    printf("N\t%zu", scene->count);
    if (match) {
        printf("\t%zu", scene->count - 1);
        scene->attributes[DSP_ATTRIBUTE_WORDS * (scene->count - 1) + DSP_ATTRIBUTE_PATTERN] = PATTERN_OF_MATCH;
    }
    printf("\n");
    for (size_t k = 0; k < scene->count; k++)
        print_line('A', scene->attributes + DSP_ATTRIBUTE_WORDS * k, DSP_ATTRIBUTE_WORDS);
}

int main(int argc, char **argv)
{
    static struct scene scene;
    int packed = argc > 3 && strcmp(argv[1], "packed") == 0;
    unsigned long slices = argc > 3 ? strtoul(argv[2], NULL, 10) : 0;
    unsigned long match = argc > 5 ? strtoul(argv[5], NULL, 10) : 0;
    if (slices < 1 || slices > DSP_MOST_SLICES || argc > 6 || (argc == 6 && (!packed || !match))) {
        fprintf(stderr, "long-listing: packed|random SLICES CLOCKS [SEED], or packed SLICES CLOCKS SEED MATCH\n");
        return 2;
    }
    seed_scenes(argc > 4 ? strtoul(argv[4], NULL, 10) : 1);
    if (packed)
        packed_scene(&scene, slices);
    else
        random_scene(&scene, slices);
    print_settings(&scene, match);
    print_clocks(&scene, strtoul(argv[3], NULL, 10), match);
    return fflush(stdout) == EOF;
}
