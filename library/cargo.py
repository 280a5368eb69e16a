"""The tests of the crate `qlock` for Rust."""
import os
import shutil
import subprocess
from pathlib import Path

from building import HERE, archives

CRATE = HERE / "rust"
SETTINGS = ("QLOCK_PREFIX", "PKG_CONFIG_PATH", "PKG_CONFIG_LIBDIR")


def placed(prefix):
    """The library, its header and its file for pkg-config below a folder, as `./qlock --install` places them."""
    (prefix / "lib" / "pkgconfig").mkdir(parents=True)
    (prefix / "include").mkdir()
    for archive, name in zip(archives(), ("libqlock.a", "libqlock_heap.a")):
        shutil.copy(archive, prefix / "lib" / name)
    shutil.copy(HERE / "include" / "qlock.h", prefix / "include")
    told = (HERE / "qlock.pc.in").read_text().replace("@PREFIX@", str(prefix)).replace("@VERSION@", "0")
    (prefix / "lib" / "pkgconfig" / "qlock.pc").write_text(told)
    return prefix


class Cargo:
    """Runs cargo on the crate without a network, and counts what goes wrong."""

    def __init__(self, folder):
        self.folder, self.failed = folder, 0

    def run(self, words, settings, **how):
        known = {name: value for name, value in os.environ.items() if name not in SETTINGS}
        known |= {"CARGO_TARGET_DIR": str(self.folder / "target"), **settings}
        return subprocess.run(["cargo", *words, "--offline", "--locked"], cwd=CRATE, env=known, timeout=600, text=True, **how)

    def wants(self, what, is_so):
        print(f"rust: {what}" if is_so else f"rust: not so: {what}", flush=True)
        self.failed += not is_so


def tests(folder):
    """How many fail, of the crate's tests and of its builds by each way to find the library."""
    if not shutil.which("cargo"):
        print("rust: cargo is not there, so nothing of the crate was tested")
        return 0
    cargo, prefix = Cargo(folder), placed(folder / "prefix")
    here, by_text = {"QLOCK_PREFIX": str(prefix)}, {"PKG_CONFIG_PATH": str(prefix / "lib" / "pkgconfig")}
    cargo.wants("its tests, and the examples of its documentation", cargo.run(["test", "--quiet"], here).returncode == 0)
    run = cargo.run(["run", "--quiet", "--example", "count"], here, stdout=subprocess.PIPE)
    cargo.wants("the example of docs/LIBRARY.md", (run.returncode, run.stdout) == (0, "4 turns\n"))
    cargo.wants("its documentation has no warning", cargo.run(["doc", "--quiet", "--no-deps"], {**here, "RUSTDOCFLAGS": "-D warnings"}).returncode == 0)
    if shutil.which("cargo-clippy"):
        cargo.wants("clippy has no warning", cargo.run(["clippy", "--quiet", "--all-targets"], {**here, "RUSTFLAGS": "-D warnings"}).returncode == 0)
    cargo.wants("it finds the library by pkg-config", cargo.run(["run", "--quiet", "--example", "count"], by_text, stdout=subprocess.DEVNULL).returncode == 0)
    nowhere = {"PKG_CONFIG_LIBDIR": str(Path(folder) / "nowhere")}
    run = cargo.run(["build"], nowhere, stderr=subprocess.PIPE)
    cargo.wants("it says where it has looked for the library", run.returncode != 0 and "qlock: QLOCK_PREFIX is not set, and pkg-config said: " in run.stderr)
    return cargo.failed
