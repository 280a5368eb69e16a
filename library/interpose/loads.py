"""Programs that lock mutexes: how each is run, how its right end is seen, and its own measure."""
import bz2
import gzip
import os
import random
import re
import socket
import subprocess
import time
from contextlib import contextmanager
from dataclasses import dataclass
from typing import Callable

SECONDS = 600


class Wrong(Exception):
    """A program did not come to its right end; what was seen."""


@dataclass
class Load:
    name: str
    needs: tuple
    measure: str
    # Runs it in an environment and a folder, and gives its measure.
    run: Callable


def said(words, env=None):
    """What a program says, on both its outputs."""
    ended = subprocess.run(words, env=env, stdin=subprocess.DEVNULL, stdout=subprocess.PIPE, stderr=subprocess.STDOUT, text=True, timeout=SECONDS)
    if ended.returncode:
        raise Wrong(f"{words[0]} ended with {ended.returncode}: {ended.stdout[-500:]}")
    return ended.stdout


def number(pattern, text):
    found = re.search(pattern, text)
    if not found:
        raise Wrong(f"no {pattern} in {text[-500:]}")
    return float(found[1])


def wanted(what, is_so):
    if not is_so:
        raise Wrong(what)


def text_in(folder, size):
    """A file of words, the same each time."""
    file = folder / "text"
    if not file.exists():
        chance = random.Random(1)
        words = [bytes(chance.choices(b"etaoinshrdlu", k=chance.randint(2, 9))) for _ in range(5000)]
        file.write_bytes(b" ".join(chance.choices(words, k=size // 6))[:size])
    return file


def packs(program, ending, unpack):
    """Packs a file with four threads. What another program's code unpacks is the file."""

    def run(env, folder):
        text = text_in(folder, 12_000_000)
        began = time.monotonic()
        said([program, "-p4", "-k", "-f", text], env)
        took = time.monotonic() - began
        packed = text.with_name(f"text.{ending}")
        wanted("what it packed is another file", unpack(packed.read_bytes()) == text.read_bytes())
        packed.unlink()
        return took

    return run


def sysbench(threads, events, words):
    """Its number of events is that which was asked for."""

    def run(env, folder):
        text = said(["sysbench", f"--threads={threads}", *words, "run"], env)
        wanted("another number of events", number(r"total number of events: +(\d+)", text) == events)
        return number(r"total time: +([\d.]+)s", text)

    return run


def stress(env, folder):
    """It checks itself, and tells the operations of all its processes."""
    text = said(["stress-ng", "--mutex", "4", "--mutex-procs", "4", "--mutex-ops", "400000", "--verify", "--metrics-brief"], env)
    wanted("no successful run", "successful run completed" in text and "fail" not in text)
    wanted("too few operations", number(r"mutex +(\d+) ", text) >= 400000)
    return number(r"mutex +\d+ +[\d.]+ +[\d.]+ +[\d.]+ +([\d.]+)", text)


@contextmanager
def served(words, env, port):
    """While a server runs. It ends by a signal, with status 0."""
    with subprocess.Popen(words, env=env, stdin=subprocess.DEVNULL, stdout=subprocess.DEVNULL, stderr=subprocess.DEVNULL) as server:
        try:
            wait_for(server, port)
            yield
        finally:
            server.terminate()
            status = server.wait(SECONDS)
    wanted(f"{words[0]} ended with {status}", status == 0)


def wait_for(server, port):
    for _ in range(600):
        wanted("the server ended", server.poll() is None)
        try:
            with socket.create_connection(("127.0.0.1", port), 1):
                return
        except OSError:
            time.sleep(0.1)
    raise Wrong("the server does not answer")


def free_port():
    with socket.socket() as one:
        one.bind(("127.0.0.1", 0))
        return one.getsockname()[1]


def memcached(env, folder):
    """Four threads serve. The client compares each value that it gets with the one that it set."""
    port = free_port()
    user = ["-u", "root"] if os.geteuid() == 0 else []
    with served(["memcached", *user, "-t", "4", "-l", "127.0.0.1", "-p", str(port), "-U", "0", "-m", "64"], env, port):
        text = said(["memcaslap", "-s", f"127.0.0.1:{port}", "-T", "2", "-c", "32", "-x", "60000", "-v", "1.0"])
    for what in ("get_misses", "verify_misses", "verify_failed"):
        wanted(f"{what} in {text}", number(rf"{what}: (\d+)", text) == 0)
    return number(r"TPS: (\d+)", text)


def redis(env, folder):
    """Three threads read and write. The counter is the number of requests, and a forked child saves it."""
    port, requests, file = free_port(), 30000, folder / "dump.rdb"
    file.unlink(missing_ok=True)
    asks = ["redis-cli", "-p", str(port)]
    its_own = ["--port", str(port), "--bind", "127.0.0.1", "--dir", str(folder), "--save", "", "--io-threads", "3", "--io-threads-do-reads", "yes"]
    with served(["redis-server", *its_own], env, port):
        text = said(["redis-benchmark", "-p", str(port), "-n", str(requests), "-c", "20", "-q", "incr", "counted"])
        wanted("the counter is another number", said([*asks, "get", "counted"]).strip() == str(requests))
        said([*asks, "bgsave"])
        for _ in range(600):
            if "rdb_bgsave_in_progress:0" in said([*asks, "info", "persistence"]):
                break
            time.sleep(0.1)
        wanted("not saved", "rdb_last_bgsave_status:ok" in said([*asks, "info", "persistence"]))
    wanted("a bad file", "1 keys read" in said(["redis-check-rdb", file]))
    return [float(rate) for rate in re.findall(r"([\d.]+) requests per second", text)][-1]


LOADS = (
    Load("pbzip2", ("pbzip2",), "seconds", packs("pbzip2", "bz2", bz2.decompress)),
    Load("pigz", ("pigz",), "seconds", packs("pigz", "gz", gzip.decompress)),
    Load("sysbench mutex", ("sysbench",), "seconds", sysbench(8, 8, ("mutex", "--mutex-num=4", "--mutex-locks=10000", "--mutex-loops=100"))),
    Load("sysbench threads", ("sysbench",), "seconds", sysbench(16, 2000, ("--time=0", "--events=2000", "threads", "--thread-yields=10", "--thread-locks=4"))),
    Load("stress-ng mutex", ("stress-ng",), "operations a second", stress),
    Load("memcached", ("memcached", "memcaslap"), "requests a second", memcached),
    Load("redis", ("redis-server", "redis-benchmark", "redis-cli"), "requests a second", redis),
)
