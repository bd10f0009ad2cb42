#include "scene.h"

#include <string.h>

static uint64_t state;

void seed_scenes(uint64_t seed) { state = seed; }

uint64_t draw(void)
{
    state += UINT64_C(0x9e3779b97f4a7c15);
    uint64_t z = state;
    z = (z ^ (z >> 30)) * UINT64_C(0xbf58476d1ce4e5b9);
    z = (z ^ (z >> 27)) * UINT64_C(0x94d049bb133111eb);
    return z ^ (z >> 31);
}

static uint64_t draw_bits(unsigned width) { return draw() >> (64 - width); }

/* ---- the packed setting */

static void packed_attributes(uint64_t *a)
{
    static const unsigned ones[] = {
        DSP_ATTRIBUTE_AREG, DSP_ATTRIBUTE_ACASCREG, DSP_ATTRIBUTE_DREG, DSP_ATTRIBUTE_ADREG, DSP_ATTRIBUTE_MREG,
        DSP_ATTRIBUTE_PREG, DSP_ATTRIBUTE_USE_MULT, DSP_ATTRIBUTE_AMULTSEL,
    };
    for (size_t i = 0; i < sizeof ones / sizeof ones[0]; i++)
        a[ones[i]] = 1;
    a[DSP_ATTRIBUTE_BREG] = 2;
    a[DSP_ATTRIBUTE_BCASCREG] = 2;
}

static uint64_t draw_signed8(unsigned width, unsigned shift)
{
    uint64_t byte = draw_bits(8), extended = byte & 128 ? byte | ~UINT64_C(255) : byte;
    return extended << shift & ((UINT64_C(1) << width) - 1);
}

static void packed_ports(uint64_t *p)
{
    p[DSP_PORT_A] = draw_signed8(30, 18);
    p[DSP_PORT_D] = draw_signed8(27, 0);
    p[DSP_PORT_B] = draw_signed8(18, 0);
    p[DSP_PORT_OPMODE] = 21;
    p[DSP_PORT_INMODE] = 4;
    p[DSP_PORT_CE] = DSP_CE_ALL;
}

/* ---- random settings */

/* All words but USE_SIMD, which stays ONE48: what is measured is the adder of 48 bits. */
static void random_attributes(uint64_t *a)
{
    static const unsigned widths[] = DSP_ATTRIBUTE_WIDTHS;
    static const unsigned pairs[][2] = { { 0, 0 }, { 1, 1 }, { 2, 1 }, { 2, 2 } };
    unsigned i = (unsigned)draw_bits(2), j = (unsigned)draw_bits(2);
    for (size_t w = 0; w < DSP_ATTRIBUTE_USE_SIMD; w++)
        a[w] = draw_bits(widths[w]);
    a[DSP_ATTRIBUTE_AREG] = pairs[i][0];
    a[DSP_ATTRIBUTE_ACASCREG] = pairs[i][1];
    a[DSP_ATTRIBUTE_BREG] = pairs[j][0];
    a[DSP_ATTRIBUTE_BCASCREG] = pairs[j][1];
}

static int opmode_is_legal(const uint64_t *a, uint64_t opmode, int logic)
{
    uint64_t x = opmode & 3, y = opmode >> 2 & 3, z = opmode >> 4 & 7, w = opmode >> 7;
    if (z == 4 || z == 7 || (x == 1) != (y == 1) || (x == 1 && !a[DSP_ATTRIBUTE_USE_MULT]))
        return 0;
    if (!a[DSP_ATTRIBUTE_PREG] && (x == 2 || z == 2 || z == 6 || w == 1))
        return 0;
    return !logic || (w == 0 && (y == 0 || y == 2) && x != 1);
}

static uint64_t draw_opmode(const uint64_t *a, int logic)
{
    uint64_t opmode;
    do
        opmode = draw_bits(9);
    while (!opmode_is_legal(a, opmode, logic));
    return opmode;
}

static uint64_t draw_inmode(const uint64_t *a)
{
    uint64_t allowed = 2;
    if (a[DSP_ATTRIBUTE_AMULTSEL])
        allowed |= 12;
    if (a[DSP_ATTRIBUTE_AREG])
        allowed |= 1;
    if (a[DSP_ATTRIBUTE_BREG])
        allowed |= 16;
    return draw_bits(5) & allowed;
}

/* A logic slice keeps to the OPMODEs that a logic mode allows, since a register can hold either longer than the other. */
static void random_ports(const uint64_t *a, uint64_t *p, int logic)
{
    static const unsigned widths[] = DSP_PORT_WIDTHS;
    static const uint64_t logic_modes[] = { 4, 5, 6, 7, 12, 13, 14, 15 }, carries[] = { 0, 1, 3, 0, 0, 5, 7, 1 };
    for (size_t w = 0; w < DSP_PORT_WORDS; w++)
        p[w] = draw_bits(widths[w]);
    p[DSP_PORT_OPMODE] = draw_opmode(a, logic);
    p[DSP_PORT_ALUMODE] = logic ? logic_modes[draw_bits(3)] : draw_bits(2);
    p[DSP_PORT_INMODE] = draw_inmode(a);
    p[DSP_PORT_CARRYINSEL] = carries[draw_bits(a[DSP_ATTRIBUTE_PREG] ? 3 : 2)];
    p[DSP_PORT_CE] |= draw_bits(13);
    p[DSP_PORT_RST] &= draw_bits(10) & draw_bits(10) & draw_bits(10);
}

/* ---- scenes */

void redraw_ports(struct scene *scene)
{
    for (size_t t = 0; t < SCENE_CLOCKS; t++)
        for (size_t k = 0; k < scene->count; k++) {
            uint64_t *p = scene->ports[t] + DSP_PORT_WORDS * k;
            if (scene->packed)
                packed_ports(p);
            else
                random_ports(scene->attributes + DSP_ATTRIBUTE_WORDS * k, p, scene->logic[k]);
        }
}

void packed_scene(struct scene *scene, size_t count)
{
    memset(scene, 0, sizeof *scene);
    scene->count = count;
    scene->packed = 1;
    for (size_t k = 0; k < count; k++)
        packed_attributes(scene->attributes + DSP_ATTRIBUTE_WORDS * k);
    redraw_ports(scene);
}

void random_scene(struct scene *scene, size_t count)
{
    memset(scene, 0, sizeof *scene);
    scene->count = count;
    for (size_t k = 0; k < count; k++) {
        random_attributes(scene->attributes + DSP_ATTRIBUTE_WORDS * k);
        scene->logic[k] = draw_bits(2) == 0;
    }
    redraw_ports(scene);
}
