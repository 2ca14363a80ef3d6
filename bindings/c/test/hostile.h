/* What the hostile tests share: memory that counts its blocks and refuses them as it is told, facts that are looked at, and
 * random words. */
#include "plumtree.h"

#include <stdbool.h>
#include <stdio.h>
#include <stdlib.h>
#include <string.h>

/* ---- Memory that counts and refuses ---- */

typedef struct rattle_tried {
    bool ok;
    void *p;
} rattle_tried;

rattle_tried rattle_alloc(size_t n, size_t align);
rattle_tried rattle_realloc(void *p, size_t kept, size_t n, size_t align);
void rattle_dealloc(void *p);

static long blocks;       /* that are out */
static long until_refusal; /* this many growths more, and one is refused; 0: none is */
static max_align_t nowhere;

static bool refuses(void)
{
    return until_refusal > 0 && --until_refusal == 0;
}

rattle_tried rattle_alloc(size_t n, size_t align)
{
    rattle_tried it = {false, &nowhere};
    void *p = refuses() ? NULL : malloc(n != 0 ? n : align);
    if (p != NULL) {
        it.ok = true;
        it.p = p;
        blocks++;
    }
    return it;
}

rattle_tried rattle_realloc(void *p, size_t kept, size_t n, size_t align)
{
    rattle_tried it = {false, &nowhere};
    (void)kept;
    void *q = refuses() ? NULL : realloc(p, n != 0 ? n : align);
    if (q != NULL) {
        it.ok = true;
        it.p = q;
    }
    return it;
}

void rattle_dealloc(void *p)
{
    blocks--;
    free(p);
}

/* ---- What is looked at ---- */

static long looked, failed;

static void look(bool fact, const char *text, const char *file, int line)
{
    looked++;
    if (!fact) {
        failed++;
        if (failed < 20)
            printf("%s:%d: %s\n", file, line, text);
    }
}

#define LOOK(fact) look((fact), #fact, __FILE__, __LINE__)
#define BYTES(text) (const uint8_t *)(text), sizeof(text) - 1

static uint64_t dice[PLUMTREE_DICE];
static uint64_t seed = 88172645463325252u;

static uint64_t random_word(void)
{
    seed ^= seed << 13;
    seed ^= seed >> 7;
    seed ^= seed << 17;
    return seed;
}

static void roll(void)
{
    for (int i = 0; i < PLUMTREE_DICE; i++)
        dice[i] = random_word();
}

static plumtree_limits standard(void)
{
    plumtree_limits limits;
    plumtree_limits_default(&limits);
    return limits;
}

static plumtree_name name_of(const char *text)
{
    plumtree_name name;
    memset(&name, 0, sizeof name);
    LOOK(plumtree_name_of((const uint8_t *)text, strlen(text), &name) == PLUMTREE_DONE);
    return name;
}
