#!/usr/bin/env -S python3 -B
"""Tests tools/trace-gates and tools/from-ftrace on booted kernels, 6.1 and 6.12: what a guest's own commands do is recorded there and made a history,
which `mntgate validate` has to find possible, and with one refusal taken for Ok impossible. By hand, some minutes for each kernel. It takes busybox
beside what kernel/compare takes. Arguments are the releases, if not both."""

import argparse
import os
import re
import subprocess
import sys

import machine

ROOT = os.path.dirname(machine.HERE)
RECORD = f"{machine.OUT}/traces"

# The guest's init: mounts an ext4 at /mnt, and answers as init.c does.
INIT = """#!/bin/busybox sh
/bin/busybox --install -s /bin
export PATH=/bin
mount -t devtmpfs dev /dev
mount -t proc proc /proc
mount -t sysfs sys /sys
mount -t tracefs tracing /sys/kernel/tracing
exec </dev/ttyS1 >/dev/ttyS1
stty raw -echo
while read name parameters; do insmod $name $parameters; done </modules
cat /disk.ext4 >/dev/ram0
mount -t ext4 /dev/ram0 /mnt
echo ready
while read line; do
    case $line in
    hello) echo processors $(nproc); echo version $(cat /proc/version) ;;
    record) sh /record ;;
    off) poweroff -f ;;
    esac
done
"""

# What is recorded: refusals one after the other, and then freezes beside writers.
COMMANDS = """set +e
trace-gates start 2>/said
echo a >/mnt/a
touch /mnt/a
exec 3>/mnt/held
mount -o remount,ro /mnt
exec 3>&-
mount -o remount,ro /mnt
touch /mnt/a
mount -o remount,rw /mnt
write() { for i in 1 2 3 4 5 6 7 8; do echo $i >>/mnt/log$1; mkdir /mnt/at$1; rmdir /mnt/at$1; done; }
write 1 &
write 2 &
for i in 1 2 3; do fsfreeze --freeze /mnt; fsfreeze --freeze /mnt; fsfreeze --unfreeze /mnt; fsfreeze --unfreeze /mnt; done
wait %1 %2
trace-gates stop >/recorded
sed 's/^/# /' /said; cat /recorded
echo '# end'
"""


def boot(release):
    """A guest of this release with a shell, and tools/trace-gates."""
    busybox = machine.find("busybox")
    if not busybox or b"statically linked" not in subprocess.run(["file", busybox], stdout=subprocess.PIPE, check=True).stdout:
        raise machine.Failed("it needs busybox-static, and file")
    machine.install_programs()
    kernel, folder, _ = machine.stock(None, release, False)
    made = machine.own_folder()
    disk, guest = f"{made}/disk.ext4", f"{made}/traces.cpio"
    with open(disk, "wb") as file:
        file.truncate(machine.DISK)
    machine.run([machine.find("mkfs.ext4"), "-q", "-F", disk], "the guest's disk can't be made")
    modules = machine.module_files(folder, machine.MODULES)
    listed = "".join(f"/{name} {machine.DISK_PARAMETERS if name == 'brd.ko' else ''}\n" for name in modules)
    entries = [(name, b"", 0o40755) for name in ("dev", "proc", "sys", "mnt", "bin")]
    entries += [("bin/busybox", machine.read(busybox), 0o100755), ("bin/trace-gates", machine.read(f"{ROOT}/tools/trace-gates"), 0o100755)]
    entries += [("init", INIT.encode(), 0o100755), ("record", COMMANDS.encode(), 0o100644), ("modules", listed.encode(), 0o100644)]
    entries += [("disk.ext4", machine.read(disk), 0o100644), *((name, data, 0o100644) for name, data in modules.items())]
    with open(guest, "wb") as file:
        file.write(machine.archive(entries))
    return machine.Guest(kernel, guest, 2, machine.accelerator(False), [])


def record(release):
    """The path of a record of this release, as tools/trace-gates has written it."""
    guest = boot(release)
    print(f"{guest.version}, {guest.processors} processors", flush=True)
    guest.send("record")
    lines = []
    while not lines or lines[-1] != "# end":
        lines.append(guest.receive(machine.ANSWER))
    guest.end()
    os.makedirs(RECORD, exist_ok=True)
    path = f"{RECORD}/{release}.trace"
    with open(path, "w", encoding="utf-8") as file:
        file.writelines(f"{line}\n" for line in lines)
    return path


def validate(program, history):
    """The status of `mntgate validate`, and what it says."""
    done = subprocess.run([program, "validate", "-"], input=history, stdout=subprocess.PIPE, stderr=subprocess.PIPE, text=True, check=False)
    return done.returncode, (done.stderr if done.returncode else done.stdout).strip()


def judge(program, release):
    """Whether this release's record is possible, and a spoiled one not."""
    path = record(release)
    with open(path, encoding="utf-8") as file:
        history = subprocess.run([f"{ROOT}/tools/from-ftrace"], stdin=file, stdout=subprocess.PIPE, text=True, check=True).stdout
    with open(f"{RECORD}/{release}.history", "w", encoding="utf-8") as file:
        file.write(history)
    spoiled = re.sub(r"^(\d+) refused 16$", r"\1 ok", history, count=1, flags=re.MULTILINE)
    status, said = validate(program, history)
    print(f"{release}: {said}", flush=True)
    against, told = validate(program, spoiled)
    print(f"{release}, its first EBUSY taken for Ok: {told.splitlines()[0]}", flush=True)
    return status == 0 and spoiled != history and against == 1 and "no execution has this line" in told


def main():
    parser = argparse.ArgumentParser(description=__doc__, formatter_class=argparse.RawDescriptionHelpFormatter)
    parser.add_argument("releases", nargs="*", default=list(machine.RELEASES), metavar="RELEASE")
    parser.add_argument("--mntgate", default=f"{ROOT}/bin/mntgate")
    options = parser.parse_args()
    try:
        passed = [judge(options.mntgate, release) for release in options.releases]
    except (machine.Failed, OSError, subprocess.CalledProcessError) as cause:
        sys.exit(f"test_traces: {cause}")
    print(f"{sum(passed)} passed, {len(passed) - sum(passed)} failed")
    return 0 if all(passed) else 1


if __name__ == "__main__":
    sys.exit(main())
