/* What the kernel asks for, and how it may keep what it has read. */
#ifndef OPERATIONS_H
#define OPERATIONS_H

#include <stdbool.h>

#include "inodes.h"

/*
 * Without mappings the kernel keeps no page of a file: a shared mapping is refused with ENODEV, and
 * while it is frozen nobody sees a byte that isn't below SOURCE.
 */
extern bool with_mappings;

/* Fills in those that change something (changing.c), and the others (reading.c). */
void operations_add_changing(struct fuse_lowlevel_ops *operations);
void operations_add_reading(struct fuse_lowlevel_ops *operations);

#endif
