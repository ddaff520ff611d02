"""What a check costs of the processor, module by module."""
import collections
import ctypes
import os
import re
import select
import struct
import subprocess
import tempfile
import time
from pathlib import Path

IN_CLOSE_WRITE, IN_MOVED_TO, IN_CREATE, IN_Q_OVERFLOW = 0x8, 0x80, 0x100, 0x4000
PARTS = {"Lts", "Proof", "Tie", "Goals", "Given", "Key", "Code", "Mir", "Statement", "Met", "TheLinks", "Answers", "Invariants",
         "Layout", "Named", "TheLink", "Signature", "Steps", "Link"}


def cpu_of(pid):
    """The seconds of the processor of a process and of those below it."""
    hertz = os.sysconf("SC_CLK_TCK")
    try:
        fields = Path(f"/proc/{pid}/stat").read_text().rsplit(")", 1)[1].split()
        total = sum(map(int, fields[11:15])) / hertz
        for child in Path(f"/proc/{pid}/task/{pid}/children").read_text().split():
            total += cpu_of(child)
        return total
    except OSError:
        return 0


class Watch:
    """Names of files as they come into a folder and the folders right below it."""

    def __init__(self, folder):
        self.libc = ctypes.CDLL(None, use_errno=True)
        self.fd = self.libc.inotify_init1(os.O_NONBLOCK)
        self.folder, self.known = str(folder), {}
        self.add(self.folder)
        for child in os.scandir(self.folder):
            if child.is_dir():
                self.add(child.path)

    def add(self, path):
        self.known[self.libc.inotify_add_watch(self.fd, path.encode(), IN_CREATE | IN_MOVED_TO | IN_CLOSE_WRITE)] = path

    def names(self, seconds):
        if not select.select([self.fd], [], [], seconds)[0]:
            return []
        data, at, found = os.read(self.fd, 1 << 16), 0, []
        while at < len(data):
            watch, mask, _, length = struct.unpack_from("iIII", data, at)
            name = data[at + 16:at + 16 + length].rstrip(b"\0").decode()
            at += 16 + length
            if mask & 0x40000000 and self.known.get(watch) == self.folder:
                self.add(f"{self.folder}/{name}")
            elif mask & (IN_CLOSE_WRITE | IN_MOVED_TO) and name.endswith(".oantt"):
                found.append(name)
        return found

    def close(self):
        os.close(self.fd)


def module_of(name):
    """The function (or file) and the part that a checked module belongs to."""
    match = re.match(r"Rattle-(\w+?)[-.](specs|proofs)\.(.*)\.oantt$", name)
    if not match:
        return "(other)", "other"
    words, path = match[3].split("."), []
    if words[0] == "contracts":
        words = words[1:]
    for word in words:
        if word in PARTS or word.startswith("Kinds"):
            return ".".join(path), "Kinds" if word.startswith("Kinds") else word
        path.append(word)
    return ".".join(path), match[2]


class Checked:
    """What a check said, and its seconds of the processor by function and part, and by module.

    A module is charged with the time since the one before it was written, so the seconds are true with one job."""

    def __init__(self):
        self.status, self.text, self.stages, self.before = 0, "", [], None
        self.wall, self.spent = 0.0, 0.0
        self.functions, self.modules = collections.defaultdict(collections.Counter), collections.Counter()

    def parts(self):
        """The seconds of each part, of all functions."""
        return sum(self.functions.values(), collections.Counter())


def check(words, folder, kept, *more):
    """Runs `rattle check` in a folder, over what is kept in another one."""
    done, seen, begun, watch = Checked(), set(), time.time(), Watch(kept)
    with tempfile.TemporaryDirectory(prefix="check-") as room:
        log, stages = Path(room, "log"), Path(room, "stages")
        with log.open("w") as out:
            child = subprocess.Popen(
                ["rattle", "check", *words, "--incremental", str(kept), "--stage-times", str(stages), *more],
                cwd=folder, stdin=subprocess.DEVNULL, stdout=out, stderr=out)
            ended, names = False, []
            while not ended or names:
                ended = child.poll() is not None
                names = watch.names(0 if ended else 0.5)
                now = max(cpu_of(child.pid), done.spent)
                for name in names:
                    if name in seen:
                        continue
                    seen.add(name)
                    took, done.spent = now - done.spent, now
                    if done.before is None:
                        done.before = took
                        continue
                    function, part = module_of(name)
                    done.functions[function][part] += took
                    done.modules[name.removesuffix(".oantt").removesuffix(".decls")] += took
        watch.close()
        done.status, done.text, done.wall = child.returncode, log.read_text(), time.time() - begun
        lines = stages.read_text().splitlines() if stages.exists() else []
        done.stages = [(line.split()[1], float(line.split()[2])) for line in lines if line.startswith("stage ")]
    return done
