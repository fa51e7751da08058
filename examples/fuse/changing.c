/* The operations that change something. Each function make_.. runs inside the gates. */
#define _GNU_SOURCE
#include <errno.h>
#include <fcntl.h>
#include <stdio.h>
#include <string.h>
#include <sys/xattr.h>
#include <unistd.h>

#include "changes.h"
#include "operations.h"

bool with_mappings = true;

static void answer(struct change *change, int failed)
{
	fuse_reply_err(change->request, failed ? errno : 0);
}

/* Answers with what now has the name. */
static void answer_entry(struct change *change)
{
	struct fuse_entry_param entry;
	int error = inode_look_up(change->inode, change->name, &entry);

	if (error)
		fuse_reply_err(change->request, error);
	else if (fuse_reply_entry(change->request, &entry) == -ENOENT)
		inode_forget(entry.ino, 1); /* nobody waits for the answer any more */
}

/* Gives what was made to the user who asked for it. A daemon that isn't root can't, nor need it. */
static int give_to_asker(struct change *change)
{
	const struct fuse_ctx *asker = fuse_req_ctx(change->request);
	int dir = inode_fd(change->inode);
	gid_t group = asker->gid;
	struct stat attr;

	if (geteuid() != 0 || (asker->uid == 0 && asker->gid == 0))
		return 0;
	if (fstatat(dir, "", &attr, AT_EMPTY_PATH) == 0 && (attr.st_mode & S_ISGID))
		group = (gid_t)-1; /* the directory has given it its own */
	if (fchownat(dir, change->name, asker->uid, group, AT_SYMLINK_NOFOLLOW))
		return -1;
	/* A change of the owner has cleared these. */
	if (S_ISREG(change->mode) && (change->mode & (S_ISUID | S_ISGID)))
		return fchmodat(dir, change->name, change->mode & 07777, 0);
	return 0;
}

static void make_node(struct change *change)
{
	int dir = inode_fd(change->inode), failed;

	if (S_ISDIR(change->mode))
		failed = mkdirat(dir, change->name, change->mode & 07777);
	else if (S_ISLNK(change->mode))
		failed = symlinkat(change->other_name, dir, change->name);
	else
		failed = mknodat(dir, change->name, change->mode, change->dev);
	if (failed || give_to_asker(change))
		answer(change, -1);
	else
		answer_entry(change);
}

static bool is_for_writing(int flags)
{
	return (flags & O_ACCMODE) != O_RDONLY;
}

/* O_APPEND and O_DIRECT are the kernel's part: it asks for each offset, from buffers of its own. */
static int flags_below(int flags)
{
	return (flags & ~(O_NOFOLLOW | O_APPEND | O_DIRECT)) | O_CLOEXEC;
}

static void keep_open(struct fuse_file_info *open, int fd)
{
	open->fh = (uint64_t)fd;
	open->direct_io = !with_mappings;
	open->keep_cache = with_mappings;
	/* Else the close of a reader would write back what a mapping has stored: it would wait. */
	open->noflush = true;
}

static void close_opened(int fd, int flags)
{
	close(fd);
	if (is_for_writing(flags))
		gates_drop_writer();
}

static int open_new(struct change *change, struct fuse_entry_param *entry)
{
	int flags = flags_below(change->open.flags) | O_CREAT;
	int fd = openat(inode_fd(change->inode), change->name, flags, change->mode & 07777);
	int error;

	if (fd < 0)
		return -errno;
	error = give_to_asker(change) ? errno : 0;
	if (!error)
		error = inode_look_up(change->inode, change->name, entry);
	if (error)
		close(fd);
	return error ? -error : fd;
}

static void make_file(struct change *change)
{
	int flags = change->open.flags, error = is_for_writing(flags) ? gates_add_writer() : 0;
	struct fuse_entry_param entry;
	int fd;

	if (error) {
		fuse_reply_err(change->request, error);
		return;
	}
	fd = open_new(change, &entry);
	if (fd < 0) {
		if (is_for_writing(flags))
			gates_drop_writer();
		fuse_reply_err(change->request, -fd);
		return;
	}
	keep_open(&change->open, fd);
	/* Nobody waits for the answer any more: the file stays, and nobody has it open. */
	if (fuse_reply_create(change->request, &entry, &change->open) == -ENOENT) {
		close_opened(fd, flags);
		inode_forget(entry.ino, 1);
	}
}

/* A read must not change the time of access; only the file's owner may ask for that. */
static int open_below(fuse_ino_t inode, int flags)
{
	struct proc_path path = inode_path(inode);
	int fd = -1;

	if (!is_for_writing(flags))
		fd = open(path.text, flags | O_NOATIME);
	return fd < 0 ? open(path.text, flags) : fd;
}

static void make_unlink(struct change *change)
{
	answer(change, unlinkat(inode_fd(change->inode), change->name, change->flags));
}

static void make_rename(struct change *change)
{
	answer(change, renameat2(inode_fd(change->inode), change->name, inode_fd(change->other),
				 change->other_name, (unsigned int)change->flags));
}

static void make_link(struct change *change)
{
	struct proc_path path = inode_path(change->other);

	if (linkat(AT_FDCWD, path.text, inode_fd(change->inode), change->name, AT_SYMLINK_FOLLOW))
		answer(change, -1);
	else
		answer_entry(change);
}

static void make_write(struct change *change)
{
	ssize_t written = pwrite((int)change->open.fh, change->bytes, change->size, change->from);

	if (written < 0)
		answer(change, -1);
	else
		fuse_reply_write(change->request, (size_t)written);
}

static void make_allocation(struct change *change)
{
	answer(change, fallocate((int)change->open.fh, change->flags, change->from, change->length));
}

static int set_owner(struct change *change)
{
	uid_t owner = change->flags & FUSE_SET_ATTR_UID ? change->attr.st_uid : (uid_t)-1;
	gid_t group = change->flags & FUSE_SET_ATTR_GID ? change->attr.st_gid : (gid_t)-1;

	return fchownat(inode_fd(change->inode), "", owner, group, AT_EMPTY_PATH);
}

static int set_size(struct change *change)
{
	struct proc_path path = inode_path(change->inode);

	if (change->open.fh != UINT64_MAX)
		return ftruncate((int)change->open.fh, change->attr.st_size);
	return truncate(path.text, change->attr.st_size);
}

static int set_times(struct change *change)
{
	struct timespec times[2] = { { 0, UTIME_OMIT }, { 0, UTIME_OMIT } };
	int set = change->flags;

	if (set & FUSE_SET_ATTR_ATIME_NOW)
		times[0].tv_nsec = UTIME_NOW;
	else if (set & FUSE_SET_ATTR_ATIME)
		times[0] = change->attr.st_atim;
	if (set & FUSE_SET_ATTR_MTIME_NOW)
		times[1].tv_nsec = UTIME_NOW;
	else if (set & FUSE_SET_ATTR_MTIME)
		times[1] = change->attr.st_mtim;
	return utimensat(inode_fd(change->inode), "", times, AT_EMPTY_PATH);
}

static void make_attributes(struct change *change)
{
	struct proc_path path = inode_path(change->inode);
	int set = change->flags, failed = 0;
	struct stat now;

	if (set & FUSE_SET_ATTR_MODE)
		failed = chmod(path.text, change->attr.st_mode & 07777);
	if (!failed && (set & (FUSE_SET_ATTR_UID | FUSE_SET_ATTR_GID)))
		failed = set_owner(change);
	if (!failed && (set & FUSE_SET_ATTR_SIZE))
		failed = set_size(change);
	if (!failed && (set & (FUSE_SET_ATTR_ATIME | FUSE_SET_ATTR_MTIME)))
		failed = set_times(change);
	if (!failed)
		failed = inode_stat(change->inode, &now);
	if (failed)
		answer(change, failed);
	else
		fuse_reply_attr(change->request, &now, KEPT_SECONDS);
}

static void make_xattr(struct change *change)
{
	struct proc_path path = inode_path(change->inode);

	answer(change, setxattr(path.text, change->name, change->bytes, change->size, change->flags));
}

static void make_xattr_removal(struct change *change)
{
	struct proc_path path = inode_path(change->inode);

	answer(change, removexattr(path.text, change->name));
}

/* What the kernel asks for, as a change. */

static void do_mknod(fuse_req_t request, fuse_ino_t dir, const char *name, mode_t mode, dev_t dev)
{
	change_admit(&(struct change){ .request = request, .make = make_node, .inode = dir,
				       .name = name, .mode = mode, .dev = dev });
}

static void do_mkdir(fuse_req_t request, fuse_ino_t dir, const char *name, mode_t mode)
{
	change_admit(&(struct change){ .request = request, .make = make_node, .inode = dir,
				       .name = name, .mode = S_IFDIR | (mode & 07777) });
}

static void do_symlink(fuse_req_t request, const char *to, fuse_ino_t dir, const char *name)
{
	change_admit(&(struct change){ .request = request, .make = make_node, .inode = dir,
				       .name = name, .other_name = to, .mode = S_IFLNK });
}

static void do_create(fuse_req_t request, fuse_ino_t dir, const char *name, mode_t mode,
		      struct fuse_file_info *open)
{
	change_admit(&(struct change){ .request = request, .make = make_file, .inode = dir,
				       .name = name, .mode = S_IFREG | mode, .open = *open });
}

/* It changes nothing and passes no gate: a truncation comes after it, as a change of attributes. */
static void do_open(fuse_req_t request, fuse_ino_t inode, struct fuse_file_info *open)
{
	int flags = open->flags, error = is_for_writing(flags) ? gates_add_writer() : 0;
	int fd;

	if (error) {
		fuse_reply_err(request, error);
		return;
	}
	fd = open_below(inode, flags_below(flags) & ~(O_CREAT | O_EXCL | O_TRUNC));
	if (fd < 0) {
		error = errno;
		if (is_for_writing(flags))
			gates_drop_writer();
		fuse_reply_err(request, error);
		return;
	}
	keep_open(open, fd);
	if (fuse_reply_open(request, open) == -ENOENT)
		close_opened(fd, flags);
}

static void do_release(fuse_req_t request, fuse_ino_t inode, struct fuse_file_info *open)
{
	(void)inode;
	close_opened((int)open->fh, open->flags);
	fuse_reply_err(request, 0);
}

static void do_unlink(fuse_req_t request, fuse_ino_t dir, const char *name)
{
	change_admit(&(struct change){ .request = request, .make = make_unlink, .inode = dir,
				       .name = name });
}

static void do_rmdir(fuse_req_t request, fuse_ino_t dir, const char *name)
{
	change_admit(&(struct change){ .request = request, .make = make_unlink, .inode = dir,
				       .name = name, .flags = AT_REMOVEDIR });
}

static void do_rename(fuse_req_t request, fuse_ino_t dir, const char *name, fuse_ino_t to,
		      const char *new_name, unsigned int flags)
{
	change_admit(&(struct change){ .request = request, .make = make_rename, .inode = dir,
				       .name = name, .other = to, .other_name = new_name,
				       .flags = (int)flags });
}

static void do_link(fuse_req_t request, fuse_ino_t inode, fuse_ino_t dir, const char *name)
{
	change_admit(&(struct change){ .request = request, .make = make_link, .inode = dir,
				       .name = name, .other = inode });
}

/* With `writepage` the kernel writes a page back that a mapping has stored into. */
static void do_write(fuse_req_t request, fuse_ino_t inode, const char *bytes, size_t size,
		     off_t from, struct fuse_file_info *open)
{
	change_admit(&(struct change){
		.request = request, .make = make_write, .inode = inode, .bytes = bytes,
		.size = size, .from = from, .open = *open,
		.passage = open->writepage ? PASSAGE_WRITEBACK : PASSAGE_SYSCALL });
}

static void do_fallocate(fuse_req_t request, fuse_ino_t inode, int mode, off_t from, off_t length,
			 struct fuse_file_info *open)
{
	change_admit(&(struct change){ .request = request, .make = make_allocation, .inode = inode,
				       .flags = mode, .from = from, .length = length,
				       .open = *open });
}

static void do_setattr(fuse_req_t request, fuse_ino_t inode, struct stat *attr, int set,
		       struct fuse_file_info *open)
{
	struct change change = { .request = request, .make = make_attributes, .inode = inode,
				 .attr = *attr, .flags = set };

	if (open)
		change.open = *open;
	else
		change.open.fh = UINT64_MAX;
	change_admit(&change);
}

static void do_setxattr(fuse_req_t request, fuse_ino_t inode, const char *name, const char *value,
			size_t size, int flags)
{
	change_admit(&(struct change){ .request = request, .make = make_xattr, .inode = inode,
				       .name = name, .bytes = value, .size = size,
				       .flags = flags });
}

static void do_removexattr(fuse_req_t request, fuse_ino_t inode, const char *name)
{
	change_admit(&(struct change){ .request = request, .make = make_xattr_removal,
				       .inode = inode, .name = name });
}

void operations_add_changing(struct fuse_lowlevel_ops *operations)
{
	operations->mknod = do_mknod;
	operations->mkdir = do_mkdir;
	operations->symlink = do_symlink;
	operations->create = do_create;
	operations->open = do_open;
	operations->release = do_release;
	operations->unlink = do_unlink;
	operations->rmdir = do_rmdir;
	operations->rename = do_rename;
	operations->link = do_link;
	operations->write = do_write;
	operations->fallocate = do_fallocate;
	operations->setattr = do_setattr;
	operations->setxattr = do_setxattr;
	operations->removexattr = do_removexattr;
}
