"""Where snapshots are kept: in a folder of their own, or in a file system that the program has to itself, in a namespace of mounts.
Nothing of either is left behind."""
import os
import pathlib
import subprocess
import tempfile

NAMESPACE = ["unshare", *([] if os.geteuid() == 0 else ["--user", "--map-root-user"]), "--mount", "--", "sh", "-ec"]

# A disk of this size at this place, and a program on it.
OWN_DISK = [*NAMESPACE, 'mount -t tmpfs -o size="$1" none "$0"; shift; exec "$@"']

# A root folder of its own, at this place until then, with what the machine's has. The program begins in another folder.
OWN_ROOT = [*NAMESPACE, '''
    mount -t tmpfs none "$0"
    for file in /*; do
        if [ -L "$file" ]; then cp -d "$file" "$0/"
        elif [ -d "$file" ]; then mkdir "$0$file"; mount --rbind "$file" "$0$file"
        fi
    done
    exec chroot "$0" env -C /tmp "$@"''']


class Kept:
    """A place for a snapshot, in a folder of its own."""

    def __init__(self, stack, text=None):
        self.folder = pathlib.Path(stack.enter_context(tempfile.TemporaryDirectory()))
        self.path, self.new, self.bad = (self.folder / f"known{end}" for end in ("", ".new", ".bad"))
        if text is not None:
            self.path.write_text(text)

    def files(self):
        return sorted(path.name for path in self.folder.iterdir())

    def keys(self, every=1, **more):
        return {"snapshot": str(self.path), "snapshot_every": every, **more}

    def mark(self):
        """By which a file that was written anew is told from the one before."""
        status = self.path.stat()
        return status.st_ino, status.st_mtime_ns


def can_mount():
    """Whether this user may have a file system of its own."""
    return subprocess.run([*OWN_DISK, "/tmp", "4k", "true"], capture_output=True, check=False).returncode == 0
