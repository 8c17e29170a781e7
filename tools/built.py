"""What the scripts run that `rt` builds: programs and archives; a part of them. One line if something is not there."""
import ctypes
import os
import subprocess
import sys
import tempfile


def ran(program, given):
    """What a program writes for these bytes."""
    try:
        return subprocess.run([program], input=given, capture_output=True, check=True).stdout
    except OSError as error:
        name = os.path.basename(program)
        sys.exit(f"{program}: {error.strerror} (`rt run` in crates/{name} builds it)")


def entry(archive, function):
    """A function of an archive, which cc links."""
    if not os.path.isfile(archive):
        name = os.path.basename(archive)[3:-2]
        sys.exit(f"{archive}: not there (`tools/archives {name}` makes it)")
    with tempfile.TemporaryDirectory() as folder:
        shared = os.path.join(folder, "entry.so")
        try:
            subprocess.run(["cc", "-shared", "-o", shared, "-Wl,--whole-archive", archive, "-Wl,--no-whole-archive"], check=True)
        except (OSError, subprocess.CalledProcessError) as error:
            sys.exit(f"cc can't link {archive}: {error}")
        return getattr(ctypes.CDLL(shared), function)
