#include <mntgate.h>
#include <stdio.h>

int main(void)
{
	const struct mntgate_config config = { 2, 1, 1, 2, 0 }; /* tasks, processors, mounts, nodes, blocks */
	struct mntgate_task backup = MNTGATE_NONE, writer = MNTGATE_NONE;

	if (mntgate_open(&backup, &config) || mntgate_split(&backup, &writer) || mntgate_want_write(&writer, 0, 0))
		return 1;
	printf("backup while the writer is inside: %u\n", mntgate_change_mount(&backup, 0, true)); /* EBUSY */
	if (mntgate_drop_write(&writer, 0, 0) || mntgate_change_mount(&backup, 0, true))
		return 1;
	printf("writer while the backup copies: %u\n", mntgate_want_write(&writer, 0, 0)); /* EROFS */
	return mntgate_join(&backup, &writer) || mntgate_close(&backup);
}
