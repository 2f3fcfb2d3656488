"""What the tools in Python share: help and usage, failures told in a line, signals, files, and the kit's rt.

A tool's status is 0 where all is done, 1 where it is not, with one line on standard error that names the file, and 2 where
it was called wrongly, with its usage. A signal ends it as the signal would by itself, but first the tool ends what it has
begun and removes its temporary files. So does a pipe that nobody reads any more, and without a word.
"""
import contextlib
import errno
import hashlib
import os
import re
import shutil
import signal
import stat
import subprocess
import sys
import tempfile

TOP = os.path.dirname(os.path.dirname(os.path.realpath(__file__)))
NAME = "tools/" + os.path.basename(sys.argv[0])


class Failed(Exception):
    """What happened, and what to do: the line to tell."""


class Misused(Exception):
    """Words that the tool does not take."""


class Signalled(BaseException):
    """A signal came; the value is its number."""


def tell(data):
    """Writes text or bytes to standard error. Where that is closed nobody wants to know."""
    data = data.encode("utf-8", "backslashreplace") if isinstance(data, str) else data
    with contextlib.suppress(OSError):
        while data:
            data = data[os.write(2, data):]


def say(line):
    """Tells a line of this tool."""
    tell("%s: %s\n" % (NAME, line))


# ---- a tool's run


def usage_of(doc):
    """The part of a tool's help that starts with 'Usage:', up to the next empty line."""
    return doc[doc.index("Usage:"):].split("\n\n")[0].rstrip()


SIGNALS = (signal.SIGINT, signal.SIGTERM, signal.SIGHUP)


class Held:
    """Whether signals are held back, and the one that came meanwhile."""
    back, came = False, None


def on_signal(number, _):
    if Held.back:
        Held.came = number
        return
    for each in SIGNALS:
        signal.signal(each, signal.SIG_IGN)
    raise Signalled(number)


@contextlib.contextmanager
def held_back():
    """A signal that comes now ends the tool after this, when what is made here has a name, by which it can be ended or removed."""
    Held.back = True
    try:
        yield
    finally:
        Held.back = False
    if Held.came is not None:
        on_signal(Held.came, None)


def end_by(number):
    """Ends the tool by a signal, so that who started it sees that."""
    signal.signal(number, signal.SIG_DFL)
    os.kill(os.getpid(), number)


def tool(doc, main):
    """Runs a tool: `main` is given the words of the command line and gives the status, None for 0."""
    for number in SIGNALS:
        if signal.getsignal(number) != signal.SIG_IGN:
            signal.signal(number, on_signal)
    try:
        with told_of("standard output"):
            os.fstat(1)
        if sys.argv[1:2] == ["--help"]:
            status = put(doc.strip() + "\n")
        else:
            status = main(sys.argv[1:])
        with told_of("standard output"):
            os.close(1)  # some file systems tell only now that there is no room
        return status
    except Misused:
        tell("%s\n%s --help says more\n" % (usage_of(doc).replace("Usage", "usage", 1), NAME))
        return 2
    except Failed as why:
        say(str(why))
        return 1
    except BrokenPipeError:
        end_by(signal.SIGPIPE)
    except Signalled as came:
        end_by(came.args[0])


# ---- files


def shown(path):
    """A path in a line: a name may have a line end in it, or nothing."""
    return "standard input" if path == "-" else path if path and path.isprintable() else ascii(path)


def why_not(error):
    """What a refused call of the system means, in words."""
    return {
        errno.EBADF: "is closed, or a folder; lead a file to it",  # python3 starts on no folder: tools/list's first line closes it
        errno.ENOENT: "there is no such file or folder; look at its path",
        errno.EISDIR: "is a folder; name a file",
        errno.ENOTDIR: "is no folder, or lies below a file; look at its path",
        errno.EACCES: "permission is denied; get the right to it, or name another file",
        errno.EROFS: "cannot be written, as its disk is for reading only; name another place",
        errno.ENOSPC: "cannot be written whole, as no room is left; make room, or name another place",
    }.get(error.errno, "%s; look at it, or name another file" % os.strerror(error.errno))


@contextlib.contextmanager
def told_of(path):
    """What the system refuses is told of this file. A pipe that nobody reads is no failure of a file."""
    try:
        yield
    except BrokenPipeError:
        raise
    except OSError as error:
        closed = path == "standard output" and error.errno == errno.EBADF
        raise Failed("%s: %s" % (shown(path), "is closed; lead it to a file" if closed else why_not(error)))


def open_input(path):
    """The descriptor of a file to read, or of standard input for '-'."""
    with told_of(path):
        given = 0 if path == "-" else os.open(path, os.O_RDONLY)
        if stat.S_ISDIR(os.fstat(given).st_mode):
            raise IsADirectoryError(errno.EISDIR, "")
        if path == "-" and os.isatty(given):
            say("reads standard input; Ctrl-D ends it")
        return given


def read(path, most):
    """The bytes of a file, or of standard input for '-'; where there are more than `most`, one more than these."""
    with open(open_input(path), "rb", closefd=path != "-") as given, told_of(path):
        return given.read(most + 1)


def write(path, data):
    """Writes a file whole, or standard output for '-'."""
    if path == "-":
        return put(data)
    with told_of(path), open(path, "wb") as out:
        out.write(data)


def put(data):
    """Writes text or bytes to standard output."""
    data = data.encode("utf-8", "surrogateescape") if isinstance(data, str) else data
    with told_of("standard output"):
        while data:
            data = data[os.write(1, data):]


# ---- commands


@contextlib.contextmanager
def begun(command, **how):
    """A command that runs in a session of its own; where the tool ends before it, all of that session is ended."""
    ran = None
    try:
        with held_back(), told_of(command[0]):
            ran = subprocess.Popen(command, start_new_session=True, **how)
        yield ran
        ran.wait()
    finally:
        if ran and ran.returncode is None:
            end_session(ran)


def status_of(ran):
    """The status that a shell would give."""
    return ran.returncode if ran.returncode >= 0 else 128 - ran.returncode


def end_session(ran):
    for number, seconds in ((signal.SIGTERM, 2), (signal.SIGKILL, None)):
        with contextlib.suppress(ProcessLookupError, subprocess.TimeoutExpired):
            os.killpg(ran.pid, number)
            ran.wait(seconds)


def runs_programs(folder):
    """Whether a program can be run from a folder: a file system may forbid it."""
    program = os.path.join(folder, "runs")
    try:
        shutil.copy("/bin/sh", program)
        return subprocess.run([program, "-c", "true"], stderr=subprocess.DEVNULL, check=False).returncode == 0
    except OSError:
        return False
    finally:
        with contextlib.suppress(OSError):
            os.remove(program)


MEMORY = "/dev/shm"
ROOM = 2_000_000_000  # bytes that are to be free there


def memory_folder():
    """A new folder in memory, None where there is no room for one."""
    try:
        room = os.statvfs(MEMORY)
        if room.f_bavail * room.f_frsize >= ROOM:
            return tempfile.mkdtemp(prefix="alderflute.", dir=MEMORY)
    except OSError:
        pass
    return None


@contextlib.contextmanager
def soonest():
    """The environment in which rt is done soonest: tools/rt says why. Where TMPDIR is set, that stands."""
    env = dict(os.environ)
    folder = None
    try:
        with held_back():
            folder = None if env.get("TMPDIR") else memory_folder()
        if folder and runs_programs(folder):
            os.chmod(folder, 0o711)  # a program that is tried runs as nobody, in a folder of its own below
            env["TMPDIR"] = folder
        yield env
    finally:
        if folder:
            shutil.rmtree(folder, ignore_errors=True)


CHECKED = re.compile(rb"crate (\w+): modules loaded=\d+ checked=([1-9]\d*)\n")
PROVED = b"logic=proved "


def quietly(command, **how):
    """Runs a command and gives its status. What it prints is shown where it fails, on standard error; and where rt has proved a crate,
    and did not find all of it proved already, a line says so at once."""
    log, crate = [], None
    with begun(command, stdout=subprocess.PIPE, stderr=subprocess.STDOUT, **how) as ran:
        for line in ran.stdout:
            log.append(line)
            checked = CHECKED.fullmatch(line)
            crate = checked[1].decode() if checked else crate
            if crate and line.startswith(PROVED):
                say("%s proved" % crate)
                crate = None
    if ran.returncode:
        tell(b"".join(log))
    return status_of(ran)


def need_rt():
    if shutil.which("rt") is None:
        raise Failed("the kit's command rt is not on the path; put it there")


def prove(verb, name):
    """Has rt prove a crate and build it, in its folder. Where nothing changed that takes little time."""
    need_rt()
    folder = os.path.join(TOP, "crates", name)
    with told_of(folder):
        os.listdir(folder)
    with soonest() as env:
        status = quietly(["rt", verb, name], stdin=subprocess.DEVNULL, env=env, cwd=folder)
    if status:
        raise Failed("rt %s %s ended with status %d, and what it said stands above; mend that" % (verb, name, status))


# ---- what is built


def program_of(name):
    """Where a program stands that `rt run` or `rt ci` has built."""
    return os.path.join(TOP, "crates", name, "out", name)


def sum_of(path):
    with told_of(path), open(path, "rb") as f:
        return hashlib.sha256(f.read()).hexdigest()


def crates():
    """The crates of crates.txt, each with the libraries of its line."""
    path = os.path.join(TOP, "crates.txt")
    with told_of(path), open(path, encoding="utf-8", errors="replace") as f:
        lines = [line.split("#")[0].partition(":") for line in f]
    return {head.split()[0]: rest.split() for head, colon, rest in lines if colon and head.split()}


def needed(name):
    """A crate and those that it stands on."""
    listed, found = crates(), [name]
    for each in found:
        found += [below for below in listed.get(each, []) if below not in found]
    return found


def sources(name):
    """A sum of all that is built of a crate: the kit, the list of crates, and the files of the crate and of those below."""
    kit = subprocess.run(["rt", "version"], stdout=subprocess.PIPE, check=False).stdout.decode(errors="replace")
    sums = [kit, os.uname().machine, sum_of(os.path.join(TOP, "crates.txt"))]
    for part in [os.path.join("crates", each, part) for each in needed(name) for part in ("src", "specs", "proofs")]:
        for folder, _, files in sorted(os.walk(os.path.join(TOP, part))):
            sums += ["%s %s" % (os.path.join(folder, file), sum_of(os.path.join(folder, file))) for file in sorted(files)]
    return hashlib.sha256("\n".join(sums).encode()).hexdigest()


def is_noted(name, made):
    """Whether the file `made` was built of the crate as it stands, by the note beside it."""
    try:
        with open(made + ".made-of", encoding="utf-8") as f:
            said = f.read()
    except (OSError, ValueError):
        return False
    return os.path.exists(made) and said == "%s %s\n" % (sources(name), sum_of(made))


def note(name, made, now):
    """Notes beside the file `made` that it was built of the crate's sources with the sum `now`."""
    write(made + ".made-of", ("%s %s\n" % (now, sum_of(made))).encode())
