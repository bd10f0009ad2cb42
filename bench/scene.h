/* Columns to measure on: settings, and the ports of some clocks, which every call accepts in whatever order they come. */
#ifndef SCENE_H
#define SCENE_H

#include "dsp48e2.h"

#define SCENE_CLOCKS 64

struct scene {
    size_t count;
    int packed, logic[DSP_MOST_SLICES];
    uint64_t attributes[DSP_MOST_SLICES * DSP_ATTRIBUTE_WORDS];
    uint64_t ports[SCENE_CLOCKS][DSP_MOST_SLICES * DSP_PORT_WORDS];
};

void seed_scenes(uint64_t seed);
uint64_t draw(void);

/* The packed run's setting, and random numbers of 8 bits on A, D and B. */
void packed_scene(struct scene *scene, size_t count);

/* Random legal attributes with one lane, and random ports that are legal with every control word that the slice can hold. */
void random_scene(struct scene *scene, size_t count);

/* New ports, with the attributes that the scene has. */
void redraw_ports(struct scene *scene);

#endif
