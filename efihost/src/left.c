/* What images have when boot services end. All of it is the system's then, and a loader leaves what
 * the kernel needs: so it is counted for the report, and is no finding. */
#include "host.h"

#define MAX_LEFT 64U

static struct left {
    struct image *image;
    uint64_t blocks, block_bytes, pages, events, protocols, opens;
} lists[MAX_LEFT];
static size_t list_count;

static struct left *left_by(struct image *image)
{
    if (image == NULL)
        return NULL;
    for (size_t i = 0; i < list_count; i++)
        if (lists[i].image == image)
            return &lists[i];
    if (list_count == MAX_LEFT)
        return NULL;
    lists[list_count].image = image;
    return &lists[list_count++];
}

static void add_block(struct block *block, void *context)
{
    struct left *left = left_by(block->origin.image);

    (void)context;
    if (left == NULL)
        return;
    left->blocks++;
    left->block_bytes += block->size;
}

static void add_run(struct run *run, void *context)
{
    struct left *left = left_by(run->origin.image);

    (void)context;
    if (left != NULL)
        left->pages += run->pages;
}

static void add_held(const struct held *held, void *context)
{
    struct left *left = left_by(held->origin.image);

    (void)context;
    if (left == NULL)
        return;
    if (held->attributes == 0)
        left->protocols++;
    else
        left->opens++;
}

void count_left(void)
{
    if (!host.checks)
        return;
    ledger_each_block(add_block, NULL);
    ledger_each_run(add_run, NULL);
    each_held(add_held, NULL);
    for (struct image *image = first_image(); image != NULL; image = image->next) {
        size_t events = events_of(image);
        struct left *left = events == 0 ? NULL : left_by(image);

        if (left != NULL)
            left->events = events;
    }
}

void print_left(FILE *file)
{
    for (size_t i = 0; i < list_count; i++)
        fprintf(file,
                "efihost: %s left to the system: %lu blocks of %lu bytes, %lu pages, %lu events, "
                "%lu protocols, %lu opens\n",
                lists[i].image->name, lists[i].blocks, lists[i].block_bytes, lists[i].pages,
                lists[i].events, lists[i].protocols, lists[i].opens);
}

/* For programs: an entry for each image. */
void write_left(FILE *file)
{
    fprintf(file, "  \"left\": [");
    for (size_t i = 0; i < list_count; i++) {
        fprintf(file, "%s\n    { \"image\": ", i == 0 ? "" : ",");
        write_text(file, lists[i].image->name);
        fprintf(file,
                ", \"blocks\": %lu, \"block_bytes\": %lu, \"pages\": %lu, \"events\": %lu, "
                "\"protocols\": %lu, \"opens\": %lu }",
                lists[i].blocks, lists[i].block_bytes, lists[i].pages, lists[i].events,
                lists[i].protocols, lists[i].opens);
    }
    fprintf(file, "%s],\n", list_count == 0 ? "" : "\n  ");
}
