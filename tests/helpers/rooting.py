"""A root of its own for what is installed: the system's root as it stands, below a layer that keeps each change and goes when it ends."""
import contextlib
import os
import shutil
import subprocess
from pathlib import Path

# Makes the layer in the folder that is named, and stays until its input ends.
LAYERS = """
set -e
mount -t tmpfs tmpfs "$1"
mkdir "$1/upper" "$1/work" "$1/merged"
mount -t overlay overlay -o "lowerdir=/,upperdir=$1/upper,workdir=$1/work" "$1/merged"
for name in dev proc; do mount --rbind "/$name" "$1/merged/$name"; done
echo made
read -r end || true
"""
PATH = "/usr/sbin:/usr/bin:/sbin:/bin"
# What the system itself writes wherever a package is installed and removed.
OF_THE_SYSTEM = "var/lib/dpkg", "var/log", "var/cache"


class Root:
    """A root in which commands run, and the changes that they made."""

    def __init__(self, keeper, folder):
        self.enter = ["nsenter", "--mount", f"--target={keeper.pid}"]
        self.folder = folder

    def run(self, words, user="root", requests=None):
        """Status, output and errors of a command in this root, run by this user in the folder /."""
        whose = [f"--userspec={user}"] if user != "root" else []
        command = [*self.enter, "chroot", *whose, self.folder / "merged", *words]
        done = subprocess.run(list(map(str, command)), env={"PATH": PATH, "HOME": "/nonexistent"}, input=requests or "", capture_output=True, text=True)
        return done.returncode, done.stdout, done.stderr

    def put(self, path, name):
        """Copies a file into this root, where everybody may read it."""
        subprocess.run([*self.enter, "install", "-D", "-m", "644", path, self.folder / "merged" / name], check=True)

    def take_away(self, name):
        subprocess.run([*self.enter, "rm", "-r", self.folder / "merged" / name], check=True)

    def changes(self):
        """The paths that commands have made, changed or taken away and that are no folders of the system, without what it writes itself."""
        listed = [*self.enter, "find", self.folder / "upper", "-mindepth", "1", "-printf", "%y %P\\n"]
        found = subprocess.run(listed, check=True, capture_output=True, text=True).stdout.splitlines()
        paths = [(line[0], line[2:]) for line in found]
        return sorted(path for kind, path in paths if not path.startswith(OF_THE_SYSTEM) and not (kind == "d" and os.path.isdir("/" + path)))


@contextlib.contextmanager
def a_root(folder):
    """A root of its own, made in an empty folder; None where this may not be done, which needs root, unshare, nsenter and overlays."""
    if os.geteuid() != 0 or not all(map(shutil.which, ("unshare", "nsenter", "chroot"))):
        yield None
        return
    words = ["unshare", "--mount", "sh", "-c", LAYERS, "sh", folder]
    with subprocess.Popen(words, stdin=subprocess.PIPE, stdout=subprocess.PIPE, stderr=subprocess.DEVNULL, text=True) as keeper:
        is_made = keeper.stdout.readline() == "made\n"
        yield Root(keeper, Path(folder)) if is_made else None
