/* The disk by way of device-mapper, so that its writes can be made to fail for a while. */
#define _GNU_SOURCE
#include <errno.h>
#include <fcntl.h>
#include <linux/dm-ioctl.h>
#include <linux/fs.h>
#include <stdio.h>
#include <string.h>
#include <sys/ioctl.h>
#include <sys/stat.h>
#include <unistd.h>

#include "guest.h"

static int control = -1;
static unsigned long long sectors;

/* What is handed over: the head, and behind it a table of one target. */
struct order {
    struct dm_ioctl head;
    struct dm_target_spec target;
    char parameters[32];
};

static struct order order_of(unsigned flags) {
    struct order order = {.head = {.version = {DM_VERSION_MAJOR, 0, 0}, .data_size = sizeof order, .data_start = sizeof order.head}};
    order.head.flags = flags;
    strcpy(order.head.name, "disk");
    return order;
}

/* Has the disk all its blocks from the RAM disk, or none at all: the target `error` fails each read and write. */
static void load_table(const char *target, const char *parameters) {
    // A freeze is what is tested, so that none may be made here.
    struct order load = order_of(0), suspend = order_of(DM_SUSPEND_FLAG | DM_SKIP_LOCKFS_FLAG), resume = order_of(0);
    load.head.target_count = 1;
    load.target.length = sectors;
    strcpy(load.target.target_type, target);
    strcpy(load.parameters, parameters);
    need(ioctl(control, DM_TABLE_LOAD, &load) == 0, "a table of device-mapper");
    need(ioctl(control, DM_DEV_SUSPEND, &suspend) == 0 && ioctl(control, DM_DEV_SUSPEND, &resume) == 0, "device-mapper's new table");
}

void let_disk_fail(int fails) { load_table(fails ? "error" : "linear", fails ? "" : "/dev/ram0 0"); }

/* The disk that is mounted: the RAM disk, or where a file /mapped is there, device-mapper's over it. */
const char *map_disk(void) {
    struct order create = order_of(0);
    int disk = open("/dev/ram0", O_RDONLY | O_CLOEXEC);
    unsigned long long bytes;
    if (access("/mapped", F_OK)) return close(disk), "/dev/ram0";
    control = open("/dev/mapper/control", O_RDWR | O_CLOEXEC);
    need(ioctl(disk, BLKGETSIZE64, &bytes) == 0 && close(disk) == 0, "the disk's size");
    need(control >= 0 && ioctl(control, DM_DEV_CREATE, &create) == 0, "device-mapper (BLK_DEV_DM)");
    sectors = bytes / 512;
    let_disk_fail(0);
    return "/dev/dm-0";
}
