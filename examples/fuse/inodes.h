/* The inodes that the kernel knows, each with a descriptor of the file below SOURCE. */
#ifndef INODES_H
#define INODES_H

#define FUSE_USE_VERSION 312
#include <fuse_lowlevel.h>

/* For how many seconds the kernel keeps names and attributes: nobody else changes SOURCE. */
#define KEPT_SECONDS 1.0

/* The path of an inode for calls that take no descriptor opened with O_PATH. */
struct proc_path {
	char text[32];
};

/* Begins with SOURCE as the root. -1 with errno if it is no directory. */
int inodes_open(const char *source);
void inodes_close(void);

int inode_fd(fuse_ino_t number);
struct proc_path inode_path(fuse_ino_t number);
int inode_stat(fuse_ino_t number, struct stat *attr);

/* Finds a name in a directory, and counts the lookup that the entry is. 0 or an errno. */
int inode_look_up(fuse_ino_t dir, const char *name, struct fuse_entry_param *entry);

/* Takes `count` lookups back. */
void inode_forget(fuse_ino_t number, uint64_t count);

#endif
