/* texts_out SIZE FOLDER: the texts of bench/texts.c, about SIZE bytes each, as files FOLDER/SHAPE.rndf and .mdf, for page_test.py. */
#include "texts.h"
#include <stdio.h>
#include <stdlib.h>

int main(int count, char **words)
{
    struct text rndf = {malloc(64u << 20), 0}, mdf = {malloc(4u << 20), 0};
    if (count != 3)
        return 2;
    for (int s = 0; s < SHAPES; s++) {
        char name[512];
        build(&shapes[s], strtoul(words[1], NULL, 10), &rndf, &mdf);
        for (int i = 0; i < 2; i++) {
            const struct text *t = i ? &mdf : &rndf;
            snprintf(name, sizeof name, "%s/%s.%s", words[2], shapes[s].name, i ? "mdf" : "rndf");
            FILE *f = fopen(name, "wb");
            if (!f || fwrite(t->bytes, 1, t->length, f) != t->length || fclose(f))
                return 1;
        }
    }
    return 0;
}
