#define _GNU_SOURCE
#include "inodes.h"

#include <errno.h>
#include <fcntl.h>
#include <pthread.h>
#include <stdio.h>
#include <stdlib.h>
#include <string.h>
#include <unistd.h>

enum { BUCKETS = 8192 };

struct inode {
	struct inode *next;
	int fd; /* opened with O_PATH */
	dev_t dev;
	ino_t ino;
	uint64_t lookups;
};

static struct inode root;
static pthread_mutex_t buckets_lock = PTHREAD_MUTEX_INITIALIZER; /* of all lookups, too */
static struct inode *buckets[BUCKETS];

static struct inode *inode_of(fuse_ino_t number)
{
	return number == FUSE_ROOT_ID ? &root : (struct inode *)(uintptr_t)number;
}

int inodes_open(const char *source)
{
	struct stat attr;

	root.fd = open(source, O_PATH | O_DIRECTORY | O_CLOEXEC);
	if (root.fd < 0 || fstat(root.fd, &attr))
		return -1;
	root.dev = attr.st_dev;
	root.ino = attr.st_ino;
	return 0;
}

void inodes_close(void)
{
	struct inode *inode;
	unsigned int bucket;

	for (bucket = 0; bucket < BUCKETS; bucket++) {
		while ((inode = buckets[bucket]) != NULL) {
			buckets[bucket] = inode->next;
			close(inode->fd);
			free(inode);
		}
	}
	close(root.fd);
}

int inode_fd(fuse_ino_t number)
{
	return inode_of(number)->fd;
}

struct proc_path inode_path(fuse_ino_t number)
{
	struct proc_path path;

	snprintf(path.text, sizeof(path.text), "/proc/self/fd/%d", inode_fd(number));
	return path;
}

int inode_stat(fuse_ino_t number, struct stat *attr)
{
	return fstatat(inode_fd(number), "", attr, AT_EMPTY_PATH | AT_SYMLINK_NOFOLLOW);
}

/* Where the inode of a file is linked, or would be; with buckets_lock held. */
static struct inode **find_slot(dev_t dev, ino_t ino)
{
	struct inode **slot = &buckets[(ino ^ (dev * 31)) % BUCKETS];

	while (*slot && ((*slot)->ino != ino || (*slot)->dev != dev))
		slot = &(*slot)->next;
	return slot;
}

/* The inode of an open file, which takes the descriptor over; NULL without memory. */
static struct inode *take_over(int fd, const struct stat *attr)
{
	struct inode **slot, *inode;

	pthread_mutex_lock(&buckets_lock);
	slot = find_slot(attr->st_dev, attr->st_ino);
	inode = *slot;
	if (inode) {
		inode->lookups++;
		close(fd);
	} else if ((inode = calloc(1, sizeof(*inode))) != NULL) {
		inode->fd = fd;
		inode->dev = attr->st_dev;
		inode->ino = attr->st_ino;
		inode->lookups = 1;
		*slot = inode;
	}
	pthread_mutex_unlock(&buckets_lock);
	return inode;
}

int inode_look_up(fuse_ino_t dir, const char *name, struct fuse_entry_param *entry)
{
	struct inode *inode;
	int fd, error;

	memset(entry, 0, sizeof(*entry));
	entry->attr_timeout = KEPT_SECONDS;
	entry->entry_timeout = KEPT_SECONDS;
	fd = openat(inode_fd(dir), name, O_PATH | O_NOFOLLOW | O_CLOEXEC);
	if (fd < 0)
		return errno;
	if (fstatat(fd, "", &entry->attr, AT_EMPTY_PATH | AT_SYMLINK_NOFOLLOW)) {
		error = errno;
		close(fd);
		return error;
	}
	inode = take_over(fd, &entry->attr);
	if (inode == NULL) {
		close(fd);
		return ENOMEM;
	}
	entry->ino = (uintptr_t)inode;
	return 0;
}

void inode_forget(fuse_ino_t number, uint64_t count)
{
	struct inode *inode = inode_of(number);

	if (inode == &root)
		return;
	pthread_mutex_lock(&buckets_lock);
	inode->lookups -= count;
	if (inode->lookups == 0)
		*find_slot(inode->dev, inode->ino) = inode->next;
	else
		inode = NULL;
	pthread_mutex_unlock(&buckets_lock);
	if (inode) {
		close(inode->fd);
		free(inode);
	}
}
