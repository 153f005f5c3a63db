"""The built program, for the scripts beside this file."""
import atexit
import os
import shutil
import subprocess
import tempfile

TOP = os.path.dirname(os.path.dirname(os.path.abspath(__file__)))
PROGRAM = os.path.join(TOP, "crates", "push_server", "out", "push_server")
MEMORY = "/dev/shm"


def make():
    """Builds the program where it isn't there, which proves it first."""
    if not os.path.exists(PROGRAM):
        subprocess.run([os.path.join(TOP, "push_server"), *words("check", os.path.join(TOP, "samples", "one.journal"))[1:]],
                       stdout=subprocess.DEVNULL, check=True)


def words(command, journal):
    """The program with a subcommand and a journal."""
    return [PROGRAM, command, "--server", "example.org", "--journal", journal]


def new_folder(where=None):
    """A folder that goes with this script."""
    folder = tempfile.mkdtemp(dir=where)
    atexit.register(shutil.rmtree, folder, ignore_errors=True)
    return folder


def memory_folder():
    """The same in memory, where a sync takes no time."""
    return new_folder(MEMORY if os.path.isdir(MEMORY) else None)


_journals = []


def new_run():
    """The program with a new journal in memory. The journal of the run before is removed."""
    if not _journals:
        _journals.append(memory_folder())
    folder = _journals[0]
    for name in os.listdir(folder):
        os.unlink(os.path.join(folder, name))
    _journals.append(os.path.join(folder, f"journal{len(_journals)}"))
    return words("run", _journals[-1])
