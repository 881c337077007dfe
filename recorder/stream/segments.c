/* `files` has of each of the newest segments which file it is: so none is removed that has only its name. */
#define _GNU_SOURCE
#include "stream/segments.h"

#include <string.h>

#include "environment/settings.h"
#include "base/platform.h"
#include "base/system.h"

static AS_TABLE char first_path[PATH_MAX];

/* The newest files, by the numbers of their segments: what they are, and the number in a name that was taken. */
static AS_TABLE struct file {
    dev_t device;
    ino_t node;
    unsigned number;
} files[MAX_SEGMENTS_KEPT + 1];

static struct file *file_of(uint64_t segment)
{
    return &files[segment % (MAX_SEGMENTS_KEPT + 1)];
}

static void note(uint64_t segment, const struct output *output)
{
    *file_of(segment) = (struct file){output->device, output->node, output->number};
}

void segments_begin(const struct output *first)
{
    strcpy(first_path, first->path);
    note(0, first);
}

bool segments_name(uint64_t segment, char *name)
{
    return output_name_segment(name, first_path, segment + 1);
}

/* Removes the file of a segment, with what stands beside it, unless another file has its name by now. */
static void throw_away(uint64_t segment)
{
    static AS_TABLE char name[PATH_MAX], path[PATH_MAX + sizeof ".where"];
    const struct file *file = file_of(segment);
    struct stat seen;
    strcpy(path, first_path);
    if (segment != 0 && (!segments_name(segment, name) || !output_number(path, name, file->number)))
        return;
    if (system_stat(path, &seen) != 0 || seen.st_dev != file->device || seen.st_ino != file->node)
        return;
    system_unlink(path);
    strcat(path, ".where");
    system_unlink(path);
}

void segments_keep(uint64_t segment, const struct output *output, uint64_t most)
{
    note(segment, output);
    if (segment >= most)
        throw_away(segment - most);
}
