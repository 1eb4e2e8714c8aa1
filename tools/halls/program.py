"""Running a program, `wagonplan` above all, and writing what it answers so that nothing is lost."""
import os
import stat
import subprocess
import tempfile

from .answer import TOP
from .text import Wrong


def answered(job):
    """The program's bytes to a job."""
    program = os.environ.get("WAGONPLAN") or os.path.join(TOP, "target", "bin", "wagonplan")
    return output([program], job, "tools/show_hall.sh proves and builds it; WAGONPLAN may name another.")


def output(command, given, advice):
    """What a program writes, given these bytes; the advice is for who hasn't got it."""
    program = command[0]
    try:
        done = subprocess.run(command, input=given, stdout=subprocess.PIPE, check=False)
    except OSError as error:
        raise Wrong(f"The program {program} can't be run: {error.strerror}. {advice}") from None
    if done.returncode != 0:
        how = f"was killed by signal {-done.returncode}" if done.returncode < 0 else f"ended with status {done.returncode}"
        raise Wrong(f"The program {program} {how} and gave no whole answer.")
    return done.stdout


def built(folder, name, what):
    """The program of a C file beside this one, over the archive; built for each use, so that it is never an older archive's."""
    archive = os.environ.get("WAGONPLAN_ARCHIVE") or os.path.join(TOP, "target", "libwagonplan.a")
    if not os.path.exists(archive):
        raise Wrong(f"{what} the archive {archive}, which isn't there. tools/archive.sh proves and builds it; WAGONPLAN_ARCHIVE may name another.")
    program, source = os.path.join(folder, name), os.path.join(TOP, "tools", "halls", f"{name}.c")
    flags = ["-std=c99", "-O2", "-Wall", "-Wextra", "-pedantic", "-Werror", "-I", os.path.join(TOP, "include")]
    output(["gcc", *flags, "-o", program, source, archive], b"", f"{what} a small program that it builds.")
    return program


def write_files(files):
    """Each of (path, bytes); all are tried, and then the first that failed is the error."""
    failed = []
    for path, data in files:
        try:
            write_file(path, data)
        except OSError as error:
            failed.append(f"{path} can't be written: {error.strerror}; what was there before is unchanged.")
    if failed:
        raise Wrong(failed[0])


def write_file(path, data):
    """Beside the file first, then moved into its place, so that it holds the old bytes or all of the new ones."""
    path = os.path.realpath(path)
    if os.path.exists(path) and not stat.S_ISREG(os.stat(path).st_mode):
        with open(path, "wb") as file:  # a device or a pipe is written, never replaced
            file.write(data)
        return
    handle, beside = tempfile.mkstemp(dir=os.path.dirname(path), prefix=os.path.basename(path) + ".")
    try:
        with os.fdopen(handle, "wb") as file:
            file.write(data)
            file.flush()
            os.fsync(file.fileno())
        os.chmod(beside, 0o666 & ~umask())
        os.replace(beside, path)
    except BaseException:
        os.unlink(beside)
        raise


def umask():
    mask = os.umask(0)
    os.umask(mask)
    return mask


def standard_input(most):
    """Its first bytes, at most so many."""
    with open(0, "rb", closefd=False) as file:
        return file.read(most)


def emit(data):
    """Bytes to standard output, all of them."""
    try:
        while data:
            data = data[os.write(1, data) :]
    except OSError as error:
        raise Wrong(f"Standard output can't be written: {error.strerror}.") from None
