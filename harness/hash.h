/* FNV-1a, a hash that is the same on every machine. */
#ifndef HASH_H
#define HASH_H

#include <stddef.h>
#include <stdint.h>

#define HASH_START UINT64_C(14695981039346656037)

/* The hash of some bytes behind those that gave `hash`, which is HASH_START at first. */
uint64_t hash_bytes(uint64_t hash, const void *bytes, size_t count);

#endif
