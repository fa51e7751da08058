"""The machine to compare with: Debian's packages, a guest made of them, and qemu, to whose second serial line one speaks."""

import atexit
import glob
import gzip
import hashlib
import lzma
import os
import re
import select
import shutil
import subprocess
import sys
import tarfile
import tempfile
import time

HERE = os.path.dirname(os.path.realpath(__file__))
# What is fetched and built stays here, so that the next run is quicker.
OUT = f"{HERE}/out"

# Each program that is needed, and the package that has it.
PROGRAMS = {"qemu-system-x86_64": "qemu-system-x86", "gcc": "gcc", "make": "make", "mkfs.ext4": "e2fsprogs", "dpkg-deb": "dpkg"}

# The guest's modules. Which others each needs it says itself; that ext4 needs a driver for crc32c, it doesn't.
MODULES = ["crc32c_generic", "brd", "ext4"]
DISK = 12 << 20
# The RAM disk's, in KiB.
DISK_PARAMETERS = "rd_nr=1 rd_size=16384"
NEEDED = r"\./(boot/vmlinuz-|(usr/)?lib/modules/[^/]+/(modules\.builtin$|kernel/(fs|lib|crypto|drivers/(block|md|dax))/))"

# The names of the stock kernels' packages, by release, behind linux-image- and linux-headers-.
RELEASES = {"6.1": r"6\.1\.0-\d+-amd64", "6.12": r"6\.12\.\d+\+deb12-amd64"}

# An emulated processor would spend much time on what guards it from others. One that gets no time itself may miss the timer at its first look.
PARAMETERS = "mitigations=off no_timer_check"

# Seconds that the guest may take to come up, for one answer, and to go: an emulated one on a machine with much else to do gets few of them.
BOOT = 900
ANSWER = 600
END = 120


class Failed(Exception):
    """Something that is needed isn't there, or the guest doesn't answer. The text says what to do."""


def say(text):
    """A line on standard error, where all that is no result goes."""
    print(f"compare: {text}", file=sys.stderr, flush=True)


def run(words, what, **more):
    """Runs a program, and hands out what it printed."""
    done = subprocess.run(words, stdout=subprocess.PIPE, stderr=subprocess.STDOUT, text=True, check=False, **more)
    if done.returncode != 0:
        raise Failed(f"{what}: '{' '.join(words)}' ended with status {done.returncode}:\n{done.stdout.strip()}")
    return done.stdout


def find(program):
    """The program's path; administration's folders are not on every user's PATH."""
    return shutil.which(program, path=os.environ.get("PATH", "") + ":/usr/sbin:/sbin")


def install_programs():
    """Installs the packages of the programs that aren't there, where the user may."""
    missing = sorted({package for program, package in PROGRAMS.items() if not find(program)})
    if not os.path.exists("/usr/include/stdio.h"):
        missing.append("libc6-dev")
    if not missing:
        return
    words = ["apt-get", "install", "-y", "--no-install-recommends", *missing]
    if not shutil.which("apt-get"):
        raise Failed(f"this isn't a Debian machine (no apt-get): it needs {', '.join(missing)}")
    if os.geteuid() != 0:
        words = ["sudo", "-n", *words]
    say(f"installing {', '.join(missing)}: {' '.join(words)}")
    environment = dict(os.environ, DEBIAN_FRONTEND="noninteractive")
    try:
        run(words, "the packages can't be installed (as root, after 'apt-get update'?)", env=environment)
    except FileNotFoundError as cause:
        raise Failed(f"not root, and no sudo: install {', '.join(missing)} first") from cause


def newest_image(release):
    """The name of the newest stock kernel's package of this release that apt knows for this machine."""
    names = run(["apt-cache", "pkgnames", f"linux-image-{release}."], "apt's list of packages").split()
    stock = [name for name in names if re.fullmatch(f"linux-image-{RELEASES[release]}", name)]
    if not stock:
        raise Failed(f"apt knows no stock {release} kernel: run 'apt-get update' with Debian bookworm's main and bookworm-security in its "
                     "sources, or give a package by --package FILE")
    return max(stock, key=lambda name: [int(number) for number in re.findall(r"\d+", name)])


def fetch(name, about=""):
    """A package as a file. It is unpacked, and not installed."""
    os.makedirs(OUT, exist_ok=True)
    have = glob.glob(f"{OUT}/{glob.escape(name)}_*.deb")
    if not have:
        say(f"fetching {name} ({about}it is unpacked in {OUT}, and not installed)")
        run(["apt-get", "download", name], "the package can't be fetched", cwd=OUT)
        have = glob.glob(f"{OUT}/{glob.escape(name)}_*.deb")
    return max(have)


def sum_of(path, how):
    """The beginning of a checksum of a file and of how it is used. What is made of a file is kept by that, since a name says nothing of what is in
    it."""
    with open(path, "rb") as file:
        return hashlib.sha256(hashlib.file_digest(file, "sha256").digest() + how.encode()).hexdigest()[:16]


def unpack(package):
    """What is needed of the package's files, as a folder."""
    folder = f"{OUT}/image-{sum_of(package, NEEDED)}"
    if os.path.exists(f"{folder}/whole"):
        return folder
    shutil.rmtree(folder, ignore_errors=True)
    os.makedirs(folder)
    try:
        with subprocess.Popen(["dpkg-deb", "--fsys-tarfile", package], stdout=subprocess.PIPE) as reader:
            with tarfile.open(fileobj=reader.stdout, mode="r|") as files:
                for file in files:
                    if file.isfile() and re.match(NEEDED, file.name):
                        files.extract(file, folder)
    except tarfile.TarError as cause:
        raise Failed(f"the kernel's package {package} can't be read: {cause}") from cause
    if not glob.glob(f"{folder}/boot/vmlinuz-*"):
        raise Failed(f"{package} is no package of a kernel: it has no boot/vmlinuz-..")
    open(f"{folder}/whole", "w", encoding="utf-8").close()
    return folder


def fetch_headers(image):
    """The folder of the headers for this kernel's package, to build a module with: three packages, unpacked in one place."""
    version = os.path.basename(image).split("_")[0].removeprefix("linux-image-")
    root = f"{OUT}/headers-{version}"
    folder = f"{root}/usr/src/linux-headers-{version}"
    # Their makefiles have paths, which lead elsewhere if all was moved.
    if os.path.exists(f"{root}/whole") and read(f"{root}/whole").decode() == root:
        return folder
    shutil.rmtree(root, ignore_errors=True)
    package = fetch(f"linux-headers-{version}")
    needs = run(["dpkg-deb", "-f", package, "Depends"], "what the headers depend on")
    others = re.findall(r"(linux-headers-\S+-common|linux-kbuild-\S+?)(?=[ ,(\n])", needs)
    for file in [package, *(fetch(name) for name in others)]:
        run(["dpkg-deb", "-x", file, root], "the headers can't be unpacked")
    for name in glob.glob(f"{root}/usr/src/*/Makefile"):
        move_paths(name, root)
    follow_links(root)
    with open(f"{root}/whole", "w", encoding="utf-8") as file:
        file.write(root)
    return folder


def follow_links(root):
    """Puts a copy in the place of each link below a folder: `rt ci` takes no checkout with links in it."""
    for path, folders, names in os.walk(root):
        for name in (f"{path}/{entry}" for entry in [*folders, *names]):
            if not os.path.islink(name):
                continue
            target = os.path.realpath(name)
            os.unlink(name)
            if os.path.isdir(target):
                shutil.copytree(target, name, symlinks=True)
            elif os.path.exists(target):
                shutil.copy(target, name)


def move_paths(name, root):
    """Lets a makefile of the headers name them where they were unpacked."""
    with open(name, encoding="utf-8") as file:
        text = file.read()
    with open(name, "w", encoding="utf-8") as file:
        file.write(re.sub(r"(?<![\w.])/usr/(src|lib)/linux-", rf"{root}/usr/\1/linux-", text))


def build_module(headers, *words):
    """Builds the module of module/ for the kernel that has these headers, with these words for make, and hands out its file. One that was built of the
    same sources for a stock kernel is taken again; headers elsewhere may have changed."""
    if not os.path.exists(f"{headers}/Makefile"):
        raise Failed(f"there are no headers of a kernel in {headers}: give the folder that it was built in by --headers DIR")
    sources = [(name, read(f"{HERE}/module/{name}")) for name in sorted(os.listdir(f"{HERE}/module"))]
    folder = f"{OUT}/module-{hashlib.sha256(repr((os.path.realpath(headers), words, sources)).encode()).hexdigest()[:16]}"
    if headers.startswith(f"{OUT}/") and os.path.exists(f"{folder}/whole"):
        return f"{folder}/gates.ko"
    shutil.rmtree(folder, ignore_errors=True)
    shutil.copytree(f"{HERE}/module", folder)
    # Type information for debuggers would need another program.
    run(["make", "-C", headers, f"M={folder}", "CONFIG_DEBUG_INFO_BTF_MODULES=", *words, "modules"], "the module can't be built")
    open(f"{folder}/whole", "w", encoding="utf-8").close()
    return f"{folder}/gates.ko"


def read_module(path):
    """A module's bytes; many kernels have them compressed."""
    match path.rpartition(".")[2]:
        case "xz":
            return lzma.decompress(read(path))
        case "gz":
            return gzip.decompress(read(path))
        case "zst":
            if not find("zstd"):
                raise Failed(f"{path} is compressed by zstd: install zstd")
            return subprocess.run(["zstd", "-dcq", path], stdout=subprocess.PIPE, check=True).stdout
    return read(path)


def find_modules(folder):
    """The modules below a folder by their names, and the names of those that the kernel has in itself, which modules.builtin lists."""
    files, built_in = {}, set()
    for path, _, names in os.walk(folder):
        for name in names:
            if re.search(r"\.ko(\.xz|\.gz|\.zst)?$", name):
                files[name.split(".ko")[0].replace("-", "_")] = f"{path}/{name}"
            elif name == "modules.builtin":
                built_in |= {os.path.basename(line).removesuffix(".ko").replace("-", "_") for line in read(f"{path}/{name}").decode().split()}
    return files, built_in


def module_files(folder, names):
    """The guest's modules in the order in which they are loaded, each after those that it needs: (name, bytes). A kernel that was given without a
    folder has all of them in itself."""
    files, built_in = find_modules(folder) if folder else ({}, set(names))
    ordered = {}

    def reach(name):
        if name in built_in:
            return
        if name not in files:
            raise Failed(f"the kernel has no module {name}, neither in itself (=y, as modules.builtin lists it) nor as {name}.ko in {folder}")
        data = read_module(files[name])
        needed = re.search(rb"\0depends=([^\0]*)\0", data).group(1).decode().replace("-", "_")
        for other in filter(None, needed.split(",")):
            reach(other)
        ordered.setdefault(f"{name}.ko", data)

    for name in names:
        reach(name)
    return ordered


def archive(entries):
    """A cpio archive (newc) of files and folders: (name, bytes, mode)."""
    parts = []
    for number, (name, data, mode) in enumerate([*entries, ("TRAILER!!!", b"", 0)]):
        fields = [number, mode, 0, 0, 1, 0, len(data), 0, 0, 0, 0, len(name) + 1, 0]
        head = b"070701" + b"".join(b"%08X" % field for field in fields) + name.encode() + b"\0"
        parts += [head, b"\0" * (-len(head) % 4), data, b"\0" * (-len(data) % 4)]
    return b"".join(parts)


def read(path):
    """A file's bytes."""
    with open(path, "rb") as file:
        return file.read()


def own_folder():
    """A folder for what this process makes of a guest, until it ends. Another one may make its guest at the same time."""
    os.makedirs(OUT, exist_ok=True)
    folder = tempfile.mkdtemp(prefix="guest-", dir=OUT)
    atexit.register(shutil.rmtree, folder, ignore_errors=True)
    return folder


def build_guest(folder, module, options):
    """The guest's initramfs: our init, the modules, and a disk with an ext4. Where its writes may fail it has no journal, which would be given up."""
    made = own_folder()
    init, disk, guest = f"{made}/init", f"{made}/disk.ext4", f"{made}/guest.cpio"
    sources = [f"{HERE}/{name}.c" for name in ("init", "faults", "gate_calls", "histories", "mapped")]
    run([find("gcc"), "-O2", "-Wall", "-Wextra", "-static", "-pthread", "-o", init, *sources], "the guest's init can't be built")
    with open(disk, "wb") as file:
        file.truncate(DISK)
    run([find("mkfs.ext4"), "-q", "-F", *(["-O", "^has_journal"] if options.failing_disk else []), disk], "the guest's disk can't be made")
    modules = module_files(folder, [*MODULES, "dm_mod"] if options.failing_disk else MODULES)
    if module:
        modules["gates.ko"] = read(module)
    entries = [("dev", b"", 0o40755), ("init", read(init), 0o100755), ("disk.ext4", read(disk), 0o100644)]
    entries += [(name, data, 0o100644) for name, data in modules.items()]
    if options.failing_disk:
        entries.append(("mapped", b"", 0o100644))
    parameters = {"brd.ko": DISK_PARAMETERS, "gates.ko": options.wrong}
    entries.append(("modules", "".join(f"/{name} {parameters.get(name, '')}\n" for name in modules).encode(), 0o100644))
    with open(guest, "wb") as file:
        file.write(archive(entries))
    return guest


def stock(package, release, with_module):
    """A stock kernel of Debian's: its file, the folder of its modules, and that of its headers, if they are wanted."""
    package = package or fetch(newest_image(release), "70 to 110 MB; ")
    folder = unpack(package)
    return glob.glob(f"{folder}/boot/vmlinuz-*")[0], folder, fetch_headers(package) if with_module else None


def own(image, modules, headers):
    """A kernel that somebody has built: as `stock`. Where its modules were installed, there is a link to the folder that it was built in."""
    if not os.path.isfile(image):
        raise Failed(f"there is no kernel {image}: arch/x86/boot/bzImage, say")
    if modules and not os.path.isdir(modules):
        raise Failed(f"there is no folder {modules}: it is INSTALL_MOD_PATH of 'make modules_install', or /lib/modules/VERSION")
    links = glob.glob(f"{modules}/build") + glob.glob(f"{modules}/lib/modules/*/build") if modules else []
    return image, modules, headers or (links[0] if links else f"{os.path.dirname(image)}/../../..")


def make_ready(options, with_module):
    """Installs, fetches and builds what is needed: the kernel's file and the guest's."""
    if os.uname().machine != "x86_64":
        raise Failed(f"this machine is {os.uname().machine}: only amd64's kernel is known here")
    install_programs()
    if options.image:
        kernel, folder, headers = own(options.image, options.modules, options.headers)
    else:
        kernel, folder, headers = stock(options.package, options.kernel, with_module)
    return kernel, build_guest(folder, build_module(headers) if with_module else None, options)


def accelerator(emulate):
    """What qemu runs the guest by: the processor, where it can, and else an emulation with a thread for each of its processors. In a virtual machine
    /dev/kvm may be there without either flag, for guests of its own kind alone (kvm_pvm): a stock kernel doesn't come up by it."""
    if emulate:
        return "tcg,thread=multi"
    with open("/proc/cpuinfo", encoding="utf-8") as info:
        can = re.search(r"^flags\b.*\b(vmx|svm)\b", info.read(), re.MULTILINE)
    return "kvm" if can and os.access("/dev/kvm", os.R_OK | os.W_OK) else "tcg,thread=multi"


class Guest:
    """A guest that runs. Each line that it is sent and each that it answers is kept in `log`."""

    def __init__(self, kernel, guest, processors, by, log):
        self.log = log
        self.rest = b""
        self.said = f"{os.path.dirname(guest)}/kernel-{processors}.log"
        words = [find("qemu-system-x86_64"), "-accel", by, "-cpu", "max", "-smp", str(processors), "-m", "320", "-nodefaults",
                 "-display", "none", "-no-reboot", "-kernel", kernel, "-initrd", guest,
                 "-append", f"console=ttyS0 loglevel=5 panic=-1 {PARAMETERS} rcupdate.rcu_expedited=1 {' '.join(f'brd.{it}' for it in DISK_PARAMETERS.split())} rdinit=/init",
                 "-serial", f"file:{self.said}", "-serial", "stdio"]
        self.qemu = subprocess.Popen(words, stdin=subprocess.PIPE, stdout=subprocess.PIPE, stderr=subprocess.PIPE)
        try:
            self.expect("ready", BOOT)
            self.processors = int(self.ask("hello").split()[1])
            self.version = self.receive(ANSWER).split(" ", 1)[1]
        except BaseException:
            # Else a guest that is still to come up would go on without whoever was told to stop.
            self.qemu.kill()
            raise
        self.release = tuple(int(number) for number in re.search(r"(\d+)\.(\d+)\.(\d+)", self.version).groups())

    def receive(self, seconds):
        """The next line from the guest."""
        end = time.monotonic() + seconds
        while b"\n" not in self.rest:
            ready, _, _ = select.select([self.qemu.stdout], [], [], max(0, end - time.monotonic()))
            some = os.read(self.qemu.stdout.fileno(), 65536) if ready else b""
            if not some:
                raise Failed(f"the guest {'ended' if ready else 'says nothing'}: {self.last_words()}")
            self.rest += some
        line, self.rest = self.rest.split(b"\n", 1)
        text = line.decode(errors="replace").strip("\r\0")
        self.log.append(f"guest< {text}")
        return text

    def last_words(self):
        """What the kernel and qemu said last."""
        self.qemu.kill()
        errors = self.qemu.communicate()[1].decode(errors="replace")
        return "\n".join((read(self.said).decode(errors="replace") + errors).splitlines()[-15:])

    def expect(self, wanted, seconds):
        """Reads the line that is wanted."""
        text = self.receive(seconds)
        if text != wanted:
            raise Failed(f"the guest said '{text}' and not '{wanted}'")

    def send(self, line):
        """Sends a line."""
        self.log.append(f"guest> {line}")
        self.qemu.stdin.write(line.encode() + b"\n")
        self.qemu.stdin.flush()

    def ask(self, line, seconds=ANSWER):
        """Sends a line, and hands out the line that it is answered by."""
        self.send(line)
        return self.receive(seconds)

    def end(self):
        """Ends the guest, if it has not ended. Before it goes it unloads the module."""
        if self.qemu.returncode is not None:
            return
        self.send("off")
        try:
            rest = self.qemu.communicate(timeout=END)[0].decode(errors="replace")
        except subprocess.TimeoutExpired:
            self.qemu.kill()
            return
        if "failed" in rest:
            raise Failed(f"the guest's end: {rest.strip()}")
