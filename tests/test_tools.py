#!/usr/bin/env python3
"""tools/: what each ends with and says, on good and on bad input. Most cases run in a copy of tools/ with stand-ins for rt, for
tools/x86run and for the programs, the others on the programs that are built; nothing is proved. Prints 'N passed, M failed'
last; exit status 1 where one failed."""
import fcntl
import os
import shutil
import signal
import stat
import struct
import subprocess
import sys
import tempfile
import termios
import time
from concurrent.futures import ThreadPoolExecutor

import programs
from programs import TOP, Cases

CASES = Cases()
expect = CASES.expect
SAMPLE = os.path.join(TOP, "samples", "flight.sbf")
TEXT = os.path.join(TOP, "samples", "shipped-v1.table.txt")
WEEKEND = os.path.join(TOP, "samples", "weekend.txt")
ONE = bytes.fromhex("24 40 A9 89 00 00 08 00")  # a block of 8 bytes
BROKEN = "/proc/self/mem"  # it opens, and reading it fails

# Writes down what it is called with and the folder for its temporary files; the file `says` is played as a part of it.
RT = """#!/bin/sh
echo "$*" >>"$STAND/calls"
echo "${TMPDIR:-}" >"$STAND/tmpdir"
if [ -e "$STAND/says" ]; then . "$STAND/says"; fi
case $1 in
version) cat "$STAND/version" ;;
lib) mkdir -p out && echo archive >"out/lib$2.a" ;;
esac
"""


def read(path, mode="rb"):
    with open(path, mode) as f:
        return f.read()


def write(path, text):
    """A file, one that can be run where it is a script."""
    os.makedirs(os.path.dirname(path), exist_ok=True)
    with open(path, "wb") as f:
        f.write(text if isinstance(text, bytes) else text.encode())
    if text[:2] in ("#!", b"#!"):
        os.chmod(path, 0o755)


def ended(ran, data=None):
    """Status, standard output and standard error of what was started."""
    try:
        out, err = ran.communicate(data, timeout=20)
    except subprocess.TimeoutExpired:
        ran.kill()
        return "no end after 20 s", b"", ""
    return ran.returncode, out, (err or b"").decode(errors="replace")


class Stand:
    """A copy of tools/ in a repository of its own, with a stand-in for rt on the path."""

    def __init__(self, folder):
        self.folder = folder
        shutil.copytree(os.path.join(TOP, "tools"), self.at("tools"), ignore=shutil.ignore_patterns("__pycache__"))
        write(self.at("tools/x86run"), '#!/bin/sh\nexec "$@"\n')
        write(self.at("bin/rt"), RT)
        write(self.at("version"), "kit 1\n")
        write(self.at("crates.txt"), "# NAME: DEPS\nlow:\ncapi: low\ncapi_c staticlib: capi low\n")
        write(self.at("crates/low/src/lib.rt"), "// low\n")
        write(self.at("crates/capi/src/lib.rt"), "// capi\n")
        write(self.at("crates/capi_c/src/lib.rt"), "// capi_c\n")
        os.makedirs(self.at("tmp"))
        self.env = {k: v for k, v in os.environ.items() if k not in ("TMPDIR", "RATTLE_HOME", "KIT", "CFLAGS", "INSNS")}
        self.env.update(STAND=folder, PATH=self.at("bin") + ":" + self.env["PATH"], PYTHONDONTWRITEBYTECODE="1")

    def at(self, path):
        return os.path.join(self.folder, path)

    def program(self, name, script):
        """A stand-in for a program, which reads all that it is given and then plays the script."""
        write(self.at(f"crates/{name}/out/{name}"), "#!/bin/sh\ncat >/dev/null\n" + script)

    def says(self, script):
        """What rt plays from now on."""
        write(self.at("says"), script)

    def calls(self):
        """What rt was called with since the last question."""
        said = read(self.at("calls"), "r").splitlines() if os.path.exists(self.at("calls")) else []
        write(self.at("calls"), "")
        return said

    def start(self, tool, *words, **how):
        how = dict({"stdin": subprocess.DEVNULL, "stdout": subprocess.PIPE, "stderr": subprocess.PIPE, "env": self.env, "cwd": self.folder}, **how)
        return subprocess.Popen([os.path.join(how.pop("top", self.folder), "tools", tool), *words], **how)

    def run(self, tool, *words, data=None, **how):
        if data is not None:
            how["stdin"] = subprocess.PIPE
        with self.start(tool, *words, **how) as ran:
            return ended(ran, data)


def one_line(name, said, tool, file, words):
    """Status 1, nothing that a program would trace, and one line that names the tool, the file and what happened."""
    status, _, err = said
    good = status == 1 and err.startswith("tools/%s: %s: " % (tool, file)) and words in err and err.count("\n") == 1
    expect(name, good, (status, err[-600:]))


def helps(stand):
    """Help on standard output and status 0, wrong words with the usage and status 2."""
    names = sorted(n for n in os.listdir(os.path.join(TOP, "tools")) if os.stat(os.path.join(TOP, "tools", n)).st_mode & stat.S_IXUSR)
    names = [n for n in names if os.path.isfile(os.path.join(TOP, "tools", n))]
    expect("the tools are there", len(names) == 15, names)
    for name in names:
        status, out, err = stand.run(name, "--help", top=TOP)
        expect(f"tools/{name} --help", (status, err) == (0, "") and f"Usage: tools/{name}" in out.decode(), (status, out[-300:], err))
        wrong = [] if name in ("quiet", "rt", "table", "x86cc", "x86run") else ["-x", "a", "b"]
        status, out, err = stand.run(name, *wrong, top=TOP)
        expect(f"tools/{name}, called wrongly", (status, out) == (2, b"") and err.startswith(f"usage: tools/{name}"), (status, out, err))
    out = stand.run("list", "--help", top=TOP)[1].decode()
    expect("list --help says what each column is", all(out.count(column) > 1 for column in ("PLACE", "NUMBER", "REVISION", "LENGTH", "BYTES", "BLOCKS", "SKIPPED")), out)
    for name in ("tests/run", "tests/wrong", ".ci/run", "bench/crc", "bench/framer", "bench/lister", "bench/record", "bench/worst"):
        with subprocess.Popen([os.path.join(TOP, name), "--help"], stdout=subprocess.PIPE, env=stand.env, cwd="/") as ran:
            said = ended(ran)
        expect(f"{name} --help", said[0] == 0 and said[1], said)
    for head in sorted(os.listdir(os.path.join(TOP, "tools"))):
        if os.path.isfile(os.path.join(TOP, "tools", head)):
            first = read(os.path.join(TOP, "tools", head), "r").splitlines()[:2]
            expect(f"tools/{head} says first what it is", any(line.startswith(("# ", '"""')) for line in first), first)


def listed(stand):
    """tools/list over a stand-in for the lister."""
    stand.program("lister", "echo 'block 0 0 0 8'; echo 'end 8 1 0'\n")
    write(stand.at("run.sbf"), ONE)
    whole = (0, b"block 0 0 0 8\nend 8 1 0\n", "")
    expect("a file", stand.run("list", "run.sbf") == whole)
    expect("what is proved first", stand.calls() == ["run lister"])
    expect("no argument", stand.run("list", data=ONE) == whole)
    expect("'-'", stand.run("list", "-", data=ONE) == whole)
    expect("from another folder", stand.run("list", "../run.sbf", cwd=stand.at("tmp")) == whole)
    os.symlink(stand.at("tools/list"), stand.at("bin/lists"))
    with subprocess.Popen([stand.at("bin/lists"), "run.sbf"], stdout=subprocess.PIPE, env=stand.env, cwd=stand.folder) as ran:
        expect("through a link", ended(ran) == whole)
    for name, script, words in [
        ("no last line", "echo 'block 0 0 0 8'", "no last line 'end ..'"),
        ("a last line that is cut", "printf 'block 0 0 0 8\\nend 8 1'", "no last line 'end ..'"),
        ("nothing at all", "", "no last line 'end ..'"),
        ("a full run", "echo 'lister: the run is full at 4294967295 bytes' >&2; echo 'end 4294967295 0 0'", "the run is full at 4294967295 bytes"),
        ("a read that fails", "echo 'lister: cannot read standard input' >&2", "cannot be read to its end"),
        ("a write that fails", "echo 'lister: cannot write to standard output' >&2", "cannot be written"),
        ("rows that are refused", "echo 'lister: the rows shipped are refused; mend them' >&2", "the rows shipped are refused"),
        ("a status", "echo 'end 8 0 0'; exit 3", "ended with status 3"),
        ("a signal", "kill -9 $$", "ended with status 137"),
    ]:
        stand.program("lister", script + "\n")
        one_line("list: " + name, stand.run("list", "run.sbf"), "list", "run.sbf", words)
        one_line("list, standard input: " + name, stand.run("list", data=ONE), "list", "standard input", words)


def others(stand):
    """tools/crc and tools/replay over stand-ins."""
    write(stand.at("a.script"), "open\n")
    stand.program("crcsum", "echo 31c3\n")
    expect("crc: a file", stand.run("crc", "a.script") == (0, b"31c3\n", ""))
    stand.program("crcsum", "echo 31c\n")
    one_line("crc: no CRC", stand.run("crc", "a.script"), "crc", "a.script", "no CRC is printed")
    stand.program("crcsum", "echo 'crcsum: cannot read standard input' >&2\n")
    one_line("crc: a read that fails", stand.run("crc", "a.script"), "crc", "a.script", "cannot be read to its end")
    stand.program("replay", "echo 'refused 2 | 0'\n")
    expect("replay: a file", stand.run("replay", "a.script") == (0, b"refused 2 | 0\n", ""))
    expect("replay: nothing to print", stand.run("replay", "-", data=b"") == (0, b"refused 2 | 0\n", ""))
    stand.program("replay", "printf 'refused 2'\n")
    one_line("replay: a line that is cut", stand.run("replay", "a.script"), "replay", "a.script", "not whole")
    stand.program("replay", "echo 'refused 2 | 0'; echo 'bad line 2' >&2\n")
    said = stand.run("replay", "a.script")
    one_line("replay: a bad line", said, "replay", "a.script", "line 2 is no call")
    expect("replay: the other lines are printed", said[1] == b"refused 2 | 0\n", said)
    stand.program("replay", "seq -f 'bad line %.0f' 12 >&2\n")
    one_line("replay: many bad lines", stand.run("replay", "a.script"), "replay", "a.script", "lines 1, 2, 3, 4, 5, 6, 7, 8, 9, 10 and 2 more")
    stand.program("replay", "echo 'bad line 7' >&2; echo 'replay: cannot read standard input' >&2\n")
    one_line("replay: two complaints", stand.run("replay", "a.script"), "replay", "a.script", "cannot be read to its end")


def scribed(stand):
    """tools/scribe over a stand-in for the scribe."""
    write(stand.at("run.txt"), "5943 0 1000 2100\n")
    write(stand.at("my.table"), "rows")
    stand.program("scribe", "printf block\n")
    expect("scribe: a file", stand.run("scribe", "run.txt", "out.sbf") == (0, b"", "") and read(stand.at("out.sbf")) == b"block")
    expect("scribe: what is proved first", stand.calls() == ["run scribe"])
    expect("scribe: '-' and '-'", stand.run("scribe", "-", "-", data=b"5943 0 1000 2100\n") == (0, b"block", ""))
    expect("scribe: a file that is there already", stand.run("scribe", "-", "run.txt", data=b"") == (0, b"", "") and read(stand.at("run.txt")) == b"block")
    stand.program("scribe", 'printf "%s" "$*"\n')
    expect("scribe: the rows shipped", stand.run("scribe", "run.txt", "-") == (0, b"", ""))
    expect("scribe: a table", stand.run("scribe", "--table", "my.table", "run.txt", "-") == (0, b"my.table", ""))
    for words in ([], ["run.txt"], ["run.txt", "-", "-"], ["-x", "run.txt", "-"], ["run.txt", "-x"], ["--table"], ["--table", "my.table", "run.txt"],
                  ["--table", "-", "run.txt", "-"], ["run.txt", "-", "--table", "my.table"]):
        said = stand.run("scribe", *words)
        expect(f"scribe {words}: called wrongly", said[:2] == (2, b"") and said[2].startswith("usage: tools/scribe"), said)
    some = "lines 1, 2, 3, 4, 5, 6, 7, 8, 9, 10 and 2 more make no block, the first: refused 6: no row"
    for name, script, file, words, written in [
        ("a bad line", "printf block; echo 'scribe: line 7: refused 11: a value' >&2", "run.txt", "line 7 makes no block: refused 11: a value", True),
        ("many bad lines", "printf block; seq -f 'scribe: line %.0f: refused 6: no row' 12 >&2", "run.txt", some, True),
        ("a read that fails", "printf block; echo 'scribe: cannot read standard input' >&2", "run.txt", "cannot be read to its end", False),
        ("a bad line, then a read that fails", "echo 'scribe: line 1: is not' >&2; echo 'scribe: cannot read standard input' >&2", "run.txt", "to its end", False),
        ("a table that breaks a rule", "echo 'scribe: the table breaks one of the rules T1 to T20' >&2", "my.table", "breaks one of the rules T1 to T20", False),
        ("a table that cannot be read", "echo 'scribe: the table: Input/output error' >&2", "my.table", "Input/output error", False),
        ("a status", "printf block; exit 3", "run.txt", "ended with status 3", False),
        ("a signal", "printf block; kill -9 $$", "run.txt", "ended with status 137", False),
    ]:
        stand.program("scribe", script + "\n")
        write(stand.at("out.sbf"), "as it was")
        one_line("scribe: " + name, stand.run("scribe", "--table", "my.table", "run.txt", "out.sbf"), "scribe", file, words)
        expect(f"scribe: {name}: what is written", read(stand.at("out.sbf")) == (b"block" if written else b"as it was"), read(stand.at("out.sbf")))
    stand.program("scribe", "printf block\n")
    for place, words in [("tools", "is a folder"), ("none", "there is no such file"), ("run.txt/x", "lies below a file")]:
        one_line(f"scribe: the text {place}", stand.run("scribe", place, "new.sbf"), "scribe", place, words)
        one_line(f"scribe: the table {place}", stand.run("scribe", "--table", place, "run.txt", "new.sbf"), "scribe", place, words)
    expect("scribe: nothing is written then", not os.path.exists(stand.at("new.sbf")))
    for place, words in [("tools", "is a folder"), ("none/x", "there is no such file or folder"), ("/dev/full", "no room is left")]:
        one_line(f"scribe: out to {place}", stand.run("scribe", "run.txt", place), "scribe", place, words)
    with open("/dev/full", "wb") as full:
        one_line("scribe: a full device", stand.run("scribe", "run.txt", "-", stdout=full), "scribe", "run.txt", "no room is left")
    left, right = os.pipe()
    os.close(left)
    said = stand.run("scribe", "run.txt", "-", stdout=right)
    os.close(right)
    expect("scribe: a pipe that nobody reads", said[0] == -signal.SIGPIPE and said[2] == "", said)


def streams(stand):
    """Files, folders, pipes and devices, with each tool that reads or writes them."""
    stand.program("lister", "echo 'end 8 1 0'\n")
    stand.program("crcsum", "echo 31c3\n")
    stand.program("replay", "echo 'refused 2 | 0'\n")
    write(stand.at("file"), ONE)
    table = stand.at("good.table")
    expect("table make", stand.run("table", "make", TEXT, table) == (0, b"", "") and read(table) == read(TEXT[:-4]))
    for tool, words in [("list", []), ("crc", []), ("replay", []), ("table", ["show"])]:
        one_line(f"{tool}: a folder", stand.run(tool, *words, "tools"), tool, "tools", "is a folder")
        one_line(f"{tool}: no such file", stand.run(tool, *words, "none"), tool, "none", "there is no such file")
        one_line(f"{tool}: below a file", stand.run(tool, *words, "file/x"), tool, "file/x", "lies below a file")
        for given in ([], ["-"]):
            folder = os.open(stand.folder, os.O_RDONLY)
            one_line(f"{tool} {given}: a folder as standard input", stand.run(tool, *words, *given, stdin=folder), tool, "standard input", "a folder")
            os.close(folder)
        good = table if tool == "table" else "file"
        closed = 'exec "$0" "$@" >&-'
        with subprocess.Popen(["sh", "-c", closed, stand.at("tools/" + tool), *words, good], env=stand.env, cwd=stand.folder, stderr=subprocess.PIPE) as ran:
            one_line(f"{tool}: standard output closed", ended(ran), tool, "standard output", "is closed; lead it to a file")
        with open("/dev/full", "wb") as full:
            said = stand.run(tool, *words, good, stdout=full)
        one_line(f"{tool}: a full device", said, tool, "standard output" if tool == "table" else good, "no room is left")
        left, right = os.pipe()
        os.close(left)
        said = stand.run(tool, *words, good, stdout=right)
        os.close(right)
        expect(f"{tool}: a pipe that nobody reads", said[0] == -signal.SIGPIPE and said[2] == "", said)
    one_line("list: an empty name", stand.run("list", ""), "list", "''", "there is no such file")
    one_line("list: a name of two lines", stand.run("list", "no\nfile"), "list", "'no\\nfile'", "there is no such file")
    if os.geteuid():  # root may read and write all
        os.chmod(stand.at("file"), 0)
        one_line("list: a file that may not be read", stand.run("list", "file"), "list", "file", "permission is denied")
        one_line("table: a file that may not be written", stand.run("table", "make", TEXT, "file"), "table", "file", "permission is denied")


def terminal(stand):
    """Who types is told that a tool waits."""
    stand.program("lister", "echo 'end 0 0 0'\n")
    stand.program("scribe", "")
    for tool, words in [("list", []), ("scribe", ["-", "out"]), ("table", ["show"]), ("table", ["c"]), ("table", ["make", "-", "out"])]:
        typed, given = os.openpty()
        with stand.start(tool, *words, stdin=given) as ran:
            first = ran.stderr.readline()
            expect(f"{tool} {words}: at a terminal", first == f"tools/{tool}: reads standard input; Ctrl-D ends it\n".encode(), first)
            os.write(typed, b"\4")
            expect(f"{tool} {words}: Ctrl-D ends it", ended(ran)[0] == (1 if tool == "table" else 0))
        os.close(typed)
        os.close(given)


def tables(stand):
    """tools/table and tools/flight on files that are none of theirs."""
    write(stand.at("latin"), "version 1\n# gr\xf6\xdfe\n".encode("latin-1"))
    write(stand.at("digits"), "version " + 5000 * "1" + "\n")
    one_line("table: no UTF-8", stand.run("table", "make", "latin", "out"), "table", "latin", "line 2: is no text in UTF-8")
    one_line("table: a number of 5,000 digits", stand.run("table", "make", "digits", "out"), "table", "digits", "line 1: the version has at most nine digits")
    one_line("table: no end", stand.run("table", "make", "/dev/zero", "out"), "table", "/dev/zero", "is no text of a table")
    one_line("table: reading fails", stand.run("table", "show", BROKEN), "table", BROKEN, "Input/output error")
    expect("table: nothing is written", not os.path.exists(stand.at("out")))
    for place, words in [("tools", "is a folder"), ("none/x", "there is no such file or folder"), ("/dev/full", "no room is left")]:
        one_line(f"table: out to {place}", stand.run("table", "make", TEXT, place), "table", place, words)
    data = read(TEXT)
    expect("table: text from standard input, file to standard output", stand.run("table", "make", "-", "-", data=data) == (0, read(TEXT[:-4]), ""))
    expect("table: a file from standard input", stand.run("table", "show", data=read(TEXT[:-4]))[:1] == (0,))
    one_line("table: a crate that is none", stand.run("table", "rattle", TEXT, "tools"), "table", "tools/src/lib.rt", "there is no such file")
    one_line("table: rattle of standard input", stand.run("table", "rattle", "-", "tools", data=data), "table", "standard input", "names its text")
    expect("flight", stand.run("flight", stand.at("tmp")) == (0, b"", "") and read(stand.at("tmp/flight.sbf")) == read(SAMPLE))
    expect("flight: its list", read(stand.at("tmp/flight.list")) == read(SAMPLE[:-3] + "list"))
    for place, words in [("none", "there is no such file or folder"), ("latin", "lies below a file")]:
        one_line(f"flight: {place}", stand.run("flight", place), "flight", place + "/flight.sbf", words)
    os.remove(stand.at("tmp/flight.sbf"))
    os.makedirs(stand.at("tmp/flight.sbf"))
    one_line("flight: a folder of that name", stand.run("flight", "tmp"), "flight", "tmp/flight.sbf", "is a folder")


def proving(stand):
    """What is told while rt proves, and where it cannot."""
    stand.program("lister", "echo 'end 8 1 0'\n")
    write(stand.at("file"), ONE)
    stand.says('echo "fn x: proved"; echo "crate low: modules loaded=30 checked=0"; echo "logic=proved functions=1"\n')
    expect("nothing to prove, nothing told", stand.run("list", "file") == (0, b"end 8 1 0\n", ""))
    stand.says('echo "fn x: proved"; echo "crate low: modules loaded=9 checked=12"; echo "logic=proved functions=1"; n=0; until [ -e "$STAND/go" ] || [ $n = 90 ]; do sleep 0.1; n=$((n + 1)); done; echo "crate lister: modules loaded=0 checked=3"; echo "logic=proved functions=2"\n')
    with stand.start("list", "file") as ran:
        first = ran.stderr.readline()
        expect("a line a crate, while rt goes on", first == b"tools/list: low proved\n" and ran.poll() is None, first)
        write(stand.at("go"), "")
        expect("and the next", ended(ran) == (0, b"end 8 1 0\n", "tools/list: lister proved\n"))
    os.remove(stand.at("crates/lister/out/lister"))
    stand.says("printf '#!/bin/sh\\necho end 0 0 0\\n' >out/lister; chmod +x out/lister\n")
    said = stand.run("list", "file")
    expect("the first time is told", said[:2] == (0, b"end 0 0 0\n") and said[2].startswith("tools/list: proving and building lister;"), said)
    stand.says('echo "rt: low NOT PROVED"; exit 1\n')
    status, out, err = stand.run("list", "file")
    expect("a proof that fails", (status, out) == (1, b"") and err.startswith("rt: low NOT PROVED\ntools/list: rt run lister ended with status 1"), err)
    stand.says('echo "fn x: not proved"; echo "crate low: modules loaded=9 checked=1"; echo "logic=not-proved"; exit 1\n')
    status, out, err = stand.run("list", "file")
    expect("a proof that fails is no proof", (status, out) == (1, b"") and "low proved" not in err, err)
    status, out, err = stand.run("quiet", "sh", "-c", "echo out; echo err >&2; exit 5")
    expect("quiet shows what fails, with its status", (status, out, err) == (5, b"", "out\nerr\n"), (status, err))
    expect("quiet is quiet", stand.run("quiet", "sh", "-c", "echo out; echo err >&2") == (0, b"", ""))
    expect("what tools/note tells of is not proved again", stand.run("note", "lister") == (0, b"", "") and stand.run("list", "file")[:2] == (0, b"end 0 0 0\n"))
    write(stand.at("crates/lister/src/main.rt"), "// changed\n")
    expect("but where a source has changed", stand.run("list", "file")[0] == 1)
    one_line("note of no program", stand.run("note", "low"), "note", "low", "no program")
    expect("rt's status", stand.run("rt", "check")[0] == 1)
    expect("quiet: a signal, as a shell tells it", stand.run("quiet", "sh", "-c", "kill -9 $$") == (137, b"", ""))
    os.remove(stand.at("says"))
    env = dict(stand.env, PATH="/usr/bin:/bin")
    if not shutil.which("rt", path=env["PATH"]):
        for tool, words in [("list", ["file"]), ("capi", []), ("rt", ["check"])]:
            status, _, err = stand.run(tool, *words, env=env)
            expect(f"{tool}: no rt", status == 1 and err == f"tools/{tool}: the kit's command rt is not on the path; put it there\n", err)


def capi(stand):
    """The archive is made again only where something has changed."""
    def makes(name, again):
        stand.calls()
        said = stand.run("capi")
        made = "lib capi_c" in stand.calls()
        expect(f"capi: {name}", said[0] == 0 and made == again and b"libalderflute.a is built" in said[1] and ("proving" in said[2]) == again, said)

    makes("the first time", True)
    makes("the second time", False)
    os.utime(stand.at("crates/low/src/lib.rt"))
    makes("a new time stamp", False)
    write(stand.at("crates/other/src/lib.rt"), "// other\n")
    makes("a crate that it does not need", False)
    write(stand.at("crates/low/src/lib.rt"), "// low, changed\n")
    makes("a source below it", True)
    write(stand.at("crates/capi/proofs/f/Proof.antt"), "-- a proof\n")
    makes("a new proof", True)
    write(stand.at("version"), "kit 2\n")
    makes("another kit", True)
    write(stand.at("target/staticlib/libalderflute.a"), "spoiled\n")
    makes("another archive", True)
    os.remove(stand.at("target/staticlib/libalderflute.a"))
    makes("no archive", True)
    makes("and then nothing", False)
    stand.says("[ $1 = version ] || { echo no; exit 1; }\n")
    write(stand.at("crates/low/src/lib.rt"), "// low, wrong\n")
    expect("capi: a proof that fails", stand.run("capi")[0] == 1)
    os.remove(stand.at("says"))
    makes("after a proof that failed", True)
    os.remove(stand.at("crates.txt"))
    one_line("capi: no crates.txt", stand.run("capi"), "capi", stand.at("crates.txt"), "there is no such file")
    one_line("sizes: no crates.txt", stand.run("sizes"), "sizes", "crates.txt", "cannot be read")


def until(true):
    """Waits up to 10 s."""
    began = time.time()
    while not true() and time.time() - began < 10:
        time.sleep(0.02)
    return true()


def gone(number):
    """Whether a process has ended."""
    return not os.path.exists(f"/proc/{number}") or read(f"/proc/{number}/stat").rsplit(b")", 1)[1].split()[0] == b"Z"


def unread(pipe):
    """How many bytes wait in a pipe."""
    return struct.unpack("i", fcntl.ioctl(pipe, termios.FIONREAD, b"0000"))[0]


def signals(stand):
    """A signal ends a tool as it would by itself, with all that it has begun; no temporary file stays."""
    write(stand.at("file"), ONE)
    stand.program("lister", "echo 'end 8 1 0'\n")
    stand.says('sleep 60 & echo $! >"$STAND/sleeps.new"; mv "$STAND/sleeps.new" "$STAND/sleeps"; wait\n')
    for tool, words in [("list", ["file"]), ("rt", ["check"]), ("quiet", ["rt", "check"])]:
        for number in (signal.SIGTERM, signal.SIGINT, signal.SIGHUP):
            name = f"{tool}: {signal.Signals(number).name} while rt runs"
            with stand.start(tool, *words) as ran:
                expect(name, until(lambda: os.path.exists(stand.at("sleeps"))), "rt has not begun")
                folder = read(stand.at("tmpdir"), "r").strip()
                ran.send_signal(number)
                said = ended(ran)
            expect(name, said == (-number, b"", ""), said)
            sleeper = read(stand.at("sleeps"), "r").strip()
            expect(name + ": what it began", until(lambda: gone(sleeper)), "runs on")
            expect(name + ": its folder", not folder or not os.path.exists(folder), folder)
            os.remove(stand.at("sleeps"))
    os.remove(stand.at("says"))
    for tool, words in [("list", []), ("scribe", ["-", "out"]), ("table", ["show"]), ("table", ["make", "-", "out"])]:
        write(stand.at("crates/lister/out/lister"), "#!/bin/sh\nexec cat\n")
        write(stand.at("crates/scribe/out/scribe"), "#!/bin/sh\nexec cat\n")
        with stand.start(tool, *words, stdin=subprocess.PIPE) as ran:
            ran.stdin.write(b"version 1\n")
            ran.stdin.flush()
            expect(f"{tool} {words}: it reads", until(lambda: unread(ran.stdin) == 0))
            ran.send_signal(signal.SIGINT)
            said = ended(ran)
        expect(f"{tool} {words}: Ctrl-C while it reads", said[0] == -signal.SIGINT and said[2] == "", said)


def compiler(stand):
    """tools/x86cc removes its folder, also where a signal comes."""
    tools = stand.at("home/toolchain/bin/")
    write(tools + "clang", "#!/bin/sh\ntouch \"$STAND/compiles\"\nsleep 1\n")
    write(tools + "ld.lld", "#!/bin/sh\n")
    env = dict(stand.env, KIT="1", RATTLE_HOME=stand.at("home"), TMPDIR=stand.at("cc"))
    os.makedirs(stand.at("cc"))
    for number in (None, signal.SIGTERM, signal.SIGINT):
        with stand.start("x86cc", "-o", "out", "a.c", env=env) as ran:
            expect("x86cc compiles", until(lambda: os.path.exists(stand.at("compiles"))))
            if number:
                ran.send_signal(number)
            ended(ran)
        expect(f"x86cc: its folder after {number}", (ran.returncode == 0) == (number is None) and os.listdir(stand.at("cc")) == [], ran.returncode)
        os.remove(stand.at("compiles"))


def real(stand):
    """The tools of the repository itself on its programs."""
    env = dict(stand.env, RATTLE_HOME=programs.kit()["RATTLE_HOME"])
    expect("list of the flight", stand.run("list", SAMPLE, top=TOP, env=env) == (0, read(SAMPLE[:-3] + "list"), ""))
    script = os.path.join(TOP, "samples", "flight-line.script")
    expect("replay of the flight line", stand.run("replay", script, top=TOP, env=env) == (0, read(script[:-6] + "out"), ""))
    expect("crc of a text", stand.run("crc", data=b"123456789", top=TOP, env=env) == (0, b"31c3\n", ""))
    made = stand.at("weekend.sbf")
    expect("scribe of the weekend", stand.run("scribe", WEEKEND, made, top=TOP, env=env) == (0, b"", ""))
    expect("list of the weekend", stand.run("list", made, top=TOP, env=env) == (0, read(WEEKEND[:-3] + "list"), ""))
    again = stand.run("scribe", "--table", TEXT[:-4], "-", "-", data=read(WEEKEND), top=TOP, env=env)
    expect("scribe of the weekend by the table file", again == (0, read(made), ""), again[2])
    one_line("scribe: reading fails", stand.run("scribe", BROKEN, stand.at("none.sbf"), top=TOP, env=env), "scribe", BROKEN, "cannot be read to its end")
    expect("scribe: nothing is written of it", not os.path.exists(stand.at("none.sbf")))
    one_line("scribe by no table", stand.run("scribe", "--table", WEEKEND, WEEKEND, "-", top=TOP, env=env), "scribe", WEEKEND, "breaks one of the rules")
    one_line("scribe by a table that is too long", stand.run("scribe", "--table", "/dev/zero", WEEKEND, "-", top=TOP, env=env), "scribe", "/dev/zero", "breaks")
    one_line("scribe by a table that cannot be read", stand.run("scribe", "--table", BROKEN, WEEKEND, "-", top=TOP, env=env), "scribe", BROKEN, "Input/output")
    text = b"5943 0 1 2 u1\n# so\n5943 0 1000 2100\n" + b"#" * 270001 + b"\n\n5943 0 1000"
    said = stand.run("scribe", "-", "-", data=text, top=TOP, env=env)
    one_line("scribe of bad lines", said, "scribe", "standard input", "lines 1, 4, 6 make no block, the first: refused 11: a value, TOW, WNc")
    expect("scribe: the other lines are written", said[1] == bytes.fromhex("2440754037171000e803000034080000"), said)
    for tool in ("list", "replay", "crc"):
        said = stand.run(tool, BROKEN, top=TOP, env=env)
        one_line(f"{tool}: reading fails", said, tool, BROKEN, "cannot be read to its end")
        expect(f"{tool}: nothing is printed of it", said[1] == b"", said)
    write(stand.at("arm"), b"\x7fELF" + bytes(14) + b"\xb7\0")
    for file, words in [("none", "there is no such file"), ("tmp", "there is no such file"), (SAMPLE, "is no x86-64 program"), ("arm", "is no x86-64 program")]:
        one_line(f"x86run of {file}", stand.run("x86run", file, top=TOP, env=env), "x86run", file, words)
    one_line("replay of no script", stand.run("replay", SAMPLE, top=TOP, env=env), "replay", SAMPLE, "no call")


def main():
    signal.signal(signal.SIGINT, signal.default_int_handler)  # a shell's background job would have its children ignore it

    for number in (signal.SIGTERM, signal.SIGINT, signal.SIGHUP):
        signal.signal(number, signal.default_int_handler)  # who starts this in the background hands them on as ignored, to the tools too

    def apart(part):
        with tempfile.TemporaryDirectory() as folder:
            part(Stand(os.path.realpath(folder)))

    with ThreadPoolExecutor(3) as pool:
        list(pool.map(apart, (streams, signals, listed, helps, others, scribed, terminal, tables, proving, capi, compiler, real)))
    return CASES.tally()


if __name__ == "__main__":
    sys.exit(main())
