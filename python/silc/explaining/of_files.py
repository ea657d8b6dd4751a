"""Why a file could not be read or written, as the system says it."""
import difflib
import errno
import os
import resource
import stat
from collections.abc import Iterator
from contextlib import suppress

from silc.explaining.command import Case
from silc.explaining.refusals import COMMANDS_PAGE
from silc.explaining.report import Report
from silc.nets import NetFault, net_file_of

INPUTS = ("SRC", "DP", "PLAN", "MIC", "NET", "SAMPLES")
# The number of `/dev/full`, which is the same on every Linux.
FULL_DEVICE = os.makedev(1, 7)


def inputs_of(case: Case) -> Iterator[tuple[str, str]]:
    """What is read, in order, each with what it is: of a net the files of its processors before the samples."""
    for what in INPUTS:
        if what in case.files:
            yield what, case.files[what]
        if what == "NET" and what in case.files and not unread(case.files[what]):
            with suppress(NetFault):
                for number, processor in enumerate(net_file_of(case.text(what).data).processors):
                    yield from ((f"`src` of processor {number}", processor.src),
                                (f"`dp` of processor {number}", processor.dp))


def report_of(case: Case) -> Report:
    if case.status == 1:
        return Report("there is no memory left", "run it where there is more, or with a smaller source.", COMMANDS_PAGE,
                      about="silc")
    for what, name in inputs_of(case):
        fault = unread(name)
        if fault:
            return unreadable(what, name, fault)
    if "OUT" in case.files:
        return unwritten(case.files["OUT"])
    return Report("standard output could not be written",
                  "see where it goes: to a full disk, or to a program that has ended.",
                  COMMANDS_PAGE, about="silc")


def unread(name: str) -> OSError | None:
    """Why a file can't be read."""
    try:
        with open(name, "rb") as file:
            file.read(1)
    except OSError as fault:
        return fault
    return None


def unreadable(what: str, name: str, fault: OSError) -> Report:
    cures = {errno.ENOENT: "give the name of a file that is there.", errno.EISDIR: "give the name of a file in it.",
             errno.ENOTDIR: "give a name in a folder: a part of this one is a file.",
             errno.EACCES: f"ask for the right to read it, as by `chmod +r {name}`."}
    report = Report(f"{what} can't be read: {fault.strerror}", cures.get(fault.errno, "give the name of a file."),
                    COMMANDS_PAGE, about=name)
    if fault.errno == errno.ENOENT:
        near = near_file(name)
        if near:
            report.cure = f"write `{near}`, which is there."
    return report


def near_file(name: str) -> str | None:
    """The name of a file beside it that is most like the name."""
    folder, last = os.path.split(name)
    try:
        names = os.listdir(folder or ".")
    except OSError:
        return None
    near = difflib.get_close_matches(last, names, 1, 0.7)
    return os.path.join(folder, near[0]) if near else None


def unwritten(name: str) -> Report:
    """Why an output can't be written, as the system says it of the name, its folder and its disk."""
    target = os.path.realpath(name) if os.path.islink(name) else name
    folder = os.path.dirname(target) or "."
    if os.path.isdir(name):
        return no_output(name, os.strerror(errno.EISDIR),
                         f"give the name of a file, as `{os.path.join(name, 'rows.txt')}`.")
    fault = stat_fault(target)
    if fault == errno.ENOTDIR:
        return no_output(name, os.strerror(fault), "give a name in a folder: a part of this one is a file.")
    if fault == errno.ENAMETOOLONG:
        return no_output(name, os.strerror(fault), "give a shorter name.")
    if fault not in (None, errno.ENOENT) or not name:
        return no_output(name or "OUT", os.strerror(fault or errno.ENOENT), "give the name of a file.")
    if not os.path.isdir(folder):
        return no_output(name, os.strerror(errno.ENOENT), f"make the folder first: `mkdir -p {folder}`.")
    if os.path.exists(name) and not os.access(name, os.W_OK):
        return no_output(name, os.strerror(errno.EACCES), "give another name, or ask for the right to write it, as by "
                         f"`chmod +w {name}`.")
    if os.statvfs(folder).f_flag & os.ST_RDONLY:
        return no_output(name, os.strerror(errno.EROFS), "give a name on a disk that may be written.")
    if not os.path.exists(name) and not os.access(folder, os.W_OK):
        return no_output(name, os.strerror(errno.EACCES),
                         f"give a name in another folder, or ask for the right to make files in "
                         f"{place_of(folder)}.")
    room = no_room(name, folder)
    if room:
        return no_output(name, *room)
    return no_output(name, "the system has not said why", "give another name.")


def place_of(folder: str) -> str:
    """A folder in words that name it: one that is told by its way from here has its whole name too."""
    return f"`{folder}`" if folder.strip("./") else f"`{os.path.abspath(folder)}`"


def stat_fault(name: str) -> int | None:
    """The number of the fault with which the system answers for a name, or nothing."""
    try:
        os.stat(name)
    except OSError as fault:
        return fault.errno
    return None


def is_full_device(found: os.stat_result) -> bool:
    """Whether it is `/dev/full`, by its number."""
    return stat.S_ISCHR(found.st_mode) and found.st_rdev == FULL_DEVICE


def no_room(name: str, folder: str) -> tuple[str | None, str] | None:
    """What the system says where there is no room for more, and the cure. Nothing is written: a device may be a line to
    a machine."""
    if os.path.exists(name) and is_full_device(os.stat(name)):
        return os.strerror(errno.ENOSPC), "give a name on a disk with room."
    room = os.statvfs(folder)
    if room.f_blocks > 0 and room.f_bavail == 0 or room.f_files > 0 and room.f_favail == 0:
        return os.strerror(errno.ENOSPC), f"make room on the disk of {place_of(folder)}, or give a name on another one."
    most, _ = resource.getrlimit(resource.RLIMIT_FSIZE)
    if most != resource.RLIM_INFINITY:
        return f"{os.strerror(errno.EFBIG)}; a file has at most {most} bytes here", "raise the limit by `ulimit -f`."
    return None


def no_output(name: str, why: str | None, cure: str) -> Report:
    return Report(f"OUT can't be written: {why}", cure, COMMANDS_PAGE, about=name)
