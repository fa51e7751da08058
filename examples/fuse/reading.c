/* The operations that change nothing. They pass no gate: a freeze lets them go on. */
#define _GNU_SOURCE
#include <dirent.h>
#include <errno.h>
#include <fcntl.h>
#include <limits.h>
#include <stdlib.h>
#include <string.h>
#include <sys/xattr.h>
#include <unistd.h>

#include "operations.h"

/*
 * How many requests of read-ahead and write-back the kernel sends before the first is answered: as
 * many as it counts. A page's write-back that waits for a thaw must not keep reads from coming.
 */
enum { BACKGROUND = 65535 };

static void do_init(void *none, struct fuse_conn_info *connection)
{
	(void)none;
	/* A write that has returned is below SOURCE; else it could come there while it is frozen. */
	connection->want &= ~(unsigned int)FUSE_CAP_WRITEBACK_CACHE;
	/* Nobody else changes SOURCE. Else fstat would write mappings back, and wait for a thaw. */
	connection->want &= ~(unsigned int)FUSE_CAP_AUTO_INVAL_DATA;
	/* Below, root writes and truncates: so the kernel clears the setuid bit, if another user does. */
	connection->want &= ~(unsigned int)(FUSE_CAP_HANDLE_KILLPRIV | FUSE_CAP_ATOMIC_O_TRUNC);
	connection->max_background = BACKGROUND;
	connection->congestion_threshold = BACKGROUND;
}

static void do_lookup(fuse_req_t request, fuse_ino_t dir, const char *name)
{
	struct fuse_entry_param entry;
	int error = inode_look_up(dir, name, &entry);

	if (error)
		fuse_reply_err(request, error);
	else if (fuse_reply_entry(request, &entry) == -ENOENT)
		inode_forget(entry.ino, 1);
}

static void do_forget(fuse_req_t request, fuse_ino_t inode, uint64_t count)
{
	inode_forget(inode, count);
	fuse_reply_none(request);
}

static void do_forget_multi(fuse_req_t request, size_t count, struct fuse_forget_data *all)
{
	size_t at;

	for (at = 0; at < count; at++)
		inode_forget(all[at].ino, all[at].nlookup);
	fuse_reply_none(request);
}

static void do_getattr(fuse_req_t request, fuse_ino_t inode, struct fuse_file_info *open)
{
	struct stat attr;

	(void)open;
	if (inode_stat(inode, &attr))
		fuse_reply_err(request, errno);
	else
		fuse_reply_attr(request, &attr, KEPT_SECONDS);
}

static void do_readlink(fuse_req_t request, fuse_ino_t inode)
{
	char to[PATH_MAX + 1];
	ssize_t size = readlinkat(inode_fd(inode), "", to, sizeof(to) - 1);

	if (size < 0) {
		fuse_reply_err(request, errno);
		return;
	}
	to[size] = '\0';
	fuse_reply_readlink(request, to);
}

static void do_read(fuse_req_t request, fuse_ino_t inode, size_t size, off_t from,
		    struct fuse_file_info *open)
{
	struct fuse_bufvec bytes = FUSE_BUFVEC_INIT(size);

	(void)inode;
	bytes.buf[0].flags = FUSE_BUF_IS_FD | FUSE_BUF_FD_SEEK;
	bytes.buf[0].fd = (int)open->fh;
	bytes.buf[0].pos = from;
	fuse_reply_data(request, &bytes, FUSE_BUF_SPLICE_MOVE);
}

static void do_lseek(fuse_req_t request, fuse_ino_t inode, off_t from, int whence,
		     struct fuse_file_info *open)
{
	off_t at = lseek((int)open->fh, from, whence);

	(void)inode;
	if (at < 0)
		fuse_reply_err(request, errno);
	else
		fuse_reply_lseek(request, at);
}

static void do_fsync(fuse_req_t request, fuse_ino_t inode, int data_only,
		     struct fuse_file_info *open)
{
	int fd = (int)open->fh;

	(void)inode;
	fuse_reply_err(request, (data_only ? fdatasync(fd) : fsync(fd)) ? errno : 0);
}

static void do_statfs(fuse_req_t request, fuse_ino_t inode)
{
	struct statvfs all;

	if (fstatvfs(inode_fd(inode), &all))
		fuse_reply_err(request, errno);
	else
		fuse_reply_statfs(request, &all);
}

/* An open directory, and the entry that was read and didn't fit into the last answer. */
struct directory {
	DIR *at;
	struct dirent *next;
	off_t from;
};

static struct directory *directory_of(const struct fuse_file_info *open)
{
	return (struct directory *)(uintptr_t)open->fh;
}

static void close_directory(struct directory *dir)
{
	closedir(dir->at);
	free(dir);
}

/* Only the owner may ask that the time of access stays. */
static DIR *open_directory(fuse_ino_t inode)
{
	const int flags = O_RDONLY | O_DIRECTORY | O_CLOEXEC;
	int fd = openat(inode_fd(inode), ".", flags | O_NOATIME), error;
	DIR *dir;

	if (fd < 0)
		fd = openat(inode_fd(inode), ".", flags);
	if (fd < 0)
		return NULL;
	dir = fdopendir(fd);
	if (dir == NULL) {
		error = errno;
		close(fd);
		errno = error;
	}
	return dir;
}

static void do_opendir(fuse_req_t request, fuse_ino_t inode, struct fuse_file_info *open)
{
	struct directory *dir = calloc(1, sizeof(*dir));

	if (dir == NULL) {
		fuse_reply_err(request, ENOMEM);
		return;
	}
	dir->at = open_directory(inode);
	if (dir->at == NULL) {
		fuse_reply_err(request, errno);
		free(dir);
		return;
	}
	open->fh = (uintptr_t)dir;
	if (fuse_reply_open(request, open) == -ENOENT)
		close_directory(dir);
}

/* Fills an answer of at most `size` bytes. Gives how many it has, or -1 with errno. */
static ssize_t fill(fuse_req_t request, struct directory *dir, char *bytes, size_t size)
{
	struct stat entry = { .st_ino = 0 };
	size_t used = 0, needed;

	for (;;) {
		errno = 0;
		if (dir->next == NULL)
			dir->next = readdir(dir->at);
		if (dir->next == NULL)
			return errno && used == 0 ? -1 : (ssize_t)used;
		entry.st_ino = dir->next->d_ino;
		entry.st_mode = DTTOIF(dir->next->d_type);
		needed = fuse_add_direntry(request, bytes + used, size - used, dir->next->d_name,
					   &entry, dir->next->d_off);
		if (needed > size - used)
			return (ssize_t)used;
		used += needed;
		dir->from = dir->next->d_off;
		dir->next = NULL;
	}
}

static void do_readdir(fuse_req_t request, fuse_ino_t inode, size_t size, off_t from,
		       struct fuse_file_info *open)
{
	struct directory *dir = directory_of(open);
	char *bytes = malloc(size);
	ssize_t used = -1;

	(void)inode;
	if (bytes == NULL) {
		fuse_reply_err(request, ENOMEM);
		return;
	}
	if (from != dir->from) {
		seekdir(dir->at, from);
		dir->next = NULL;
		dir->from = from;
	}
	used = fill(request, dir, bytes, size);
	if (used < 0)
		fuse_reply_err(request, errno);
	else
		fuse_reply_buf(request, bytes, (size_t)used);
	free(bytes);
}

static void do_releasedir(fuse_req_t request, fuse_ino_t inode, struct fuse_file_info *open)
{
	(void)inode;
	close_directory(directory_of(open));
	fuse_reply_err(request, 0);
}

static void do_fsyncdir(fuse_req_t request, fuse_ino_t inode, int data_only,
			struct fuse_file_info *open)
{
	int fd = dirfd(directory_of(open)->at);

	(void)inode;
	fuse_reply_err(request, (data_only ? fdatasync(fd) : fsync(fd)) ? errno : 0);
}

/* The value of an extended attribute, or the list of names: its bytes, or its size alone. */
static void answer_xattr(fuse_req_t request, const char *bytes, ssize_t got, size_t size)
{
	if (got < 0)
		fuse_reply_err(request, errno);
	else if (size == 0)
		fuse_reply_xattr(request, (size_t)got);
	else
		fuse_reply_buf(request, bytes, (size_t)got);
}

static void do_getxattr(fuse_req_t request, fuse_ino_t inode, const char *name, size_t size)
{
	struct proc_path path = inode_path(inode);
	char *value = malloc(size + 1);

	if (value == NULL)
		fuse_reply_err(request, ENOMEM);
	else
		answer_xattr(request, value, getxattr(path.text, name, value, size), size);
	free(value);
}

static void do_listxattr(fuse_req_t request, fuse_ino_t inode, size_t size)
{
	struct proc_path path = inode_path(inode);
	char *names = malloc(size + 1);

	if (names == NULL)
		fuse_reply_err(request, ENOMEM);
	else
		answer_xattr(request, names, listxattr(path.text, names, size), size);
	free(names);
}

void operations_add_reading(struct fuse_lowlevel_ops *operations)
{
	operations->init = do_init;
	operations->lookup = do_lookup;
	operations->forget = do_forget;
	operations->forget_multi = do_forget_multi;
	operations->getattr = do_getattr;
	operations->readlink = do_readlink;
	operations->read = do_read;
	operations->lseek = do_lseek;
	operations->fsync = do_fsync;
	operations->statfs = do_statfs;
	operations->opendir = do_opendir;
	operations->readdir = do_readdir;
	operations->releasedir = do_releasedir;
	operations->fsyncdir = do_fsyncdir;
	operations->getxattr = do_getxattr;
	operations->listxattr = do_listxattr;
}
