/* The generator splitmix64, for tests/pages and tests/threads. */
#ifndef SPLITMIX_H
#define SPLITMIX_H

#include <stdint.h>

static uint64_t splitmix(uint64_t *state)
{
    uint64_t z = *state += 0x9e3779b97f4a7c15;
    z = (z ^ (z >> 30)) * 0xbf58476d1ce4e5b9;
    z = (z ^ (z >> 27)) * 0x94d049bb133111eb;
    return z ^ (z >> 31);
}

#endif
