"""The kernel's source: Debian's package linux-source-VERSION, fetched and unpacked into a build folder, and never committed."""
import glob
import os
import re
import subprocess
import tarfile

import setting

FILES = [
    "Makefile",
    "kernel/locking/qspinlock.c", "kernel/locking/qspinlock_paravirt.h", "kernel/locking/qrwlock.c", "kernel/locking/osq_lock.c",
    "kernel/locking/mcs_spinlock.h", "kernel/locking/lock_events.h", "kernel/locking/lock_events_list.h",
    "include/asm-generic/qspinlock.h", "include/asm-generic/qspinlock_types.h",
    "include/asm-generic/qrwlock.h", "include/asm-generic/qrwlock_types.h",
    "include/asm-generic/mcs_spinlock.h", "include/linux/hash.h", "include/linux/osq_lock.h",
    "arch/x86/include/asm/qspinlock.h", "arch/x86/kernel/kvm.c", "arch/x86/hyperv/hv_spinlock.c", "arch/x86/xen/spinlock.c",
]
# The functions by which a guest's waiter halts: of their files they alone are compiled.
WAITS = {"kvm_wait": "arch/x86/kernel/kvm.c", "hv_qlock_wait": "arch/x86/hyperv/hv_spinlock.c", "xen_qlock_wait": "arch/x86/xen/spinlock.c"}


def fetch(build, package):
    """The path of the package's archive of the source, which is fetched where it is not there."""
    archive = os.path.join(build, "package/usr/src", package + ".tar.xz")
    if os.path.exists(archive):
        return archive
    found = glob.glob(os.path.join(build, package + "_*.deb"))
    if not found:
        setting.say("fetching %s, some 150 MB" % package)
        subprocess.run(["apt-get", "-qq", "-o", "APT::Sandbox::User=root", "download", package], cwd=build, check=True)
        found = glob.glob(os.path.join(build, package + "_*.deb"))
    subprocess.run(["dpkg-deb", "-x", found[0], os.path.join(build, "package")], check=True)
    return archive


def function_of(path, name):
    """The text of one function of a file, with the line at which it begins: a line that is not indented names it before a
    parenthesis and does not end the declaration, and the first line that is a brace alone ends it."""
    with open(path) as source:
        lines = source.read().split("\n")
    begins = re.compile(r"\S.*\b%s\(" % name)
    first = next(i for i, line in enumerate(lines) if begins.match(line) and not line.endswith(";"))
    last = next(i for i in range(first, len(lines)) if lines[i] == "}")
    return first + 1, "\n".join(lines[first:last + 1])


def version(source):
    """The whole version of the source, as 6.1.192."""
    with open(os.path.join(source, "Makefile")) as makefile:
        named = dict(re.findall(r"^(VERSION|PATCHLEVEL|SUBLEVEL) = (\d+)$", makefile.read(), re.M))
    return ".".join(named[part] for part in ("VERSION", "PATCHLEVEL", "SUBLEVEL"))


def extract(archive, top, source, files):
    """Unpacks the files out of the archive, in which they stand below the folder `top`."""
    wanted = {top + name for name in files}
    with tarfile.open(archive) as members:
        for member in members:
            if member.name in wanted:
                member.name = member.name[len(top):]
                members.extract(member, source)
                wanted.remove(top + member.name)
            if not wanted:
                return
    raise SystemExit("conformance: the package has no " + ", ".join(sorted(wanted)))


def write_function(source, name, file):
    """Writes one function of a file, as it is, into a file of its own."""
    line, text = function_of(os.path.join(source, file), name)
    with open(os.path.join(source, name + ".inc"), "w") as part:
        part.write('#line %d "%s/%s"\n%s\n' % (line, source, file, text))


def unpack(build, linux):
    """The folder with the files of this version that are compiled, as they are; of a hypervisor's files only one function."""
    source, package = os.path.join(build, "source"), "linux-source-" + linux
    if all(os.path.exists(os.path.join(source, name + ".inc")) for name in WAITS):
        return source
    archive = fetch(build, package)
    setting.say("unpacking " + package)
    extract(archive, package + "/", source, FILES)
    for name, file in WAITS.items():
        write_function(source, name, file)
    return source
