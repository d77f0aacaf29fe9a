/* Texts of five shapes and any size: see texts.c. */
#ifndef TEXTS_H
#define TEXTS_H

#include <stddef.h>
#include <stdint.h>

struct text { char *bytes; size_t length; };
struct shape { const char *name; void (*build)(struct text *rndf, struct text *mdf, uint32_t k); };

enum { SHAPES = 5 };
extern const struct shape shapes[SHAPES];

/* An RNDF of this shape, as near below `size` bytes as it goes, and its MDF (empty but for the last shape). Both have room for more. */
void build(const struct shape *shape, size_t size, struct text *rndf, struct text *mdf);

#endif
