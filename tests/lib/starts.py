"""What tests/suites/hostile tries without a terminal: how ./snowbench finds its program, what --prove ends with, and streams. Each function returns
what is wrong."""
import glob
import os
import resource
import shutil
import signal
import subprocess
import tempfile
import time

TOP = os.path.dirname(os.path.dirname(os.path.dirname(os.path.realpath(__file__))))
SNOWBENCH = os.path.join(TOP, "snowbench")
# After how many seconds nothing more is awaited. (The machine may be busy.)
PATIENCE = 60
ROOM = tempfile.TemporaryDirectory()


def run_in(room, words, **more):
    return subprocess.run([SNOWBENCH, *words], cwd=room, stdin=subprocess.DEVNULL, stdout=subprocess.PIPE, stderr=subprocess.PIPE, timeout=PATIENCE, **more)


def other_programs():
    """A program that is named by a relative path, or by a name alone."""
    room, wrong = tempfile.mkdtemp(dir=ROOM.name), []
    for folder in ("bin", "here"):
        os.mkdir(os.path.join(room, folder))
    for path, text in (("bin/own", "path"), ("here/own", "file"), ("bin/other", "path")):
        with open(os.path.join(room, path), "w", encoding="ascii") as file:
            file.write("#!/bin/sh\necho %s\n" % text)
        os.chmod(os.path.join(room, path), 0o755)
    here, path = os.path.join(room, "here"), os.path.join(room, "bin") + ":" + os.environ["PATH"]
    for name, wanted in (("own", "file"), ("./own", "file"), ("../bin/own", "path"), ("other", "path"), ("none", ""), ("./other", "")):
        ended = run_in(here, ["session"], env={**os.environ, "SNOWBENCH_PROGRAM": name, "PATH": path})
        if ended.stdout.decode().strip() != wanted or (ended.returncode != 0) == bool(wanted):
            wrong.append("%s: %s %s" % (name, ended.returncode, ended.stderr.decode()[:100]))
    return wrong


def shell_options():
    options = {**os.environ, "SHELLOPTS": "keyword"}
    sums = [subprocess.run(["tools/sources"], cwd=TOP, env=env, capture_output=True, check=False).stdout for env in (os.environ, options)]
    ended = run_in(TOP, ["run", "examples/porter.sbl", "examples/porter.words"], env=options)
    return ["tools/sources"] * (sums[0] != sums[1] or not sums[0]) + [ended.stderr.decode()] * (ended.returncode != 0 or not ended.stdout)


class Copy:
    """A copy of the sources, with a program in dist/ that has nothing to do with them."""

    def __init__(self, program):
        self.room = tempfile.mkdtemp(dir=ROOM.name)
        for name in ("snowbench", "tools", "VERSION", "HANDLES", "crates.txt"):
            (shutil.copytree if os.path.isdir(os.path.join(TOP, name)) else shutil.copy2)(os.path.join(TOP, name), self.path(name))
        for part in glob.glob(os.path.join(TOP, "crates", "*", "*")):
            if os.path.basename(part) in ("src", "specs", "proofs"):
                shutil.copytree(part, self.path(os.path.relpath(part, TOP)))
        os.mkdir(self.path("dist"))
        self.program = shutil.copy2(program, self.path("dist/snowbench-x86_64-linux"))
        sources = subprocess.run([self.path("tools/sources")], capture_output=True, text=True, check=True).stdout.strip()
        checksum = subprocess.run(["sha256sum", self.program], capture_output=True, text=True, check=True).stdout.split()[0]
        with open(self.path("dist/SOURCES"), "w", encoding="ascii") as file:
            file.write("version 0\nkit none\nsources %s\nprogram %s\n" % (sources, checksum))
        # A program `find` that tells that it was called: the sources were looked through.
        self.bin = self.path("bin")
        os.mkdir(self.bin)
        with open(self.bin + "/find", "w", encoding="ascii") as file:
            file.write('#!/bin/sh\n: >"%s/looked"\nexec %s "$@"\n' % (self.room, shutil.which("find")))
        os.chmod(self.bin + "/find", 0o755)

    def path(self, name):
        return os.path.join(self.room, name)

    def run(self):
        """Returns whether the program runs, and whether the sources were looked through."""
        environment = {**os.environ, "PATH": self.bin + ":" + os.environ["PATH"]}
        environment.pop("SNOWBENCH_PROGRAM", None)
        ended = subprocess.run([self.path("snowbench"), "session"], env=environment, input=b"externals ( stem ) define stem as true\n.\n.\n", capture_output=True, timeout=PATIENCE)
        looked = os.path.exists(self.path("looked"))
        if looked:
            os.remove(self.path("looked"))
        return ended.returncode == 0, looked


def change(path):
    """Changes a byte of a file, and says that this was done when it was changed last."""
    state = os.stat(path)
    with open(path, "r+b") as file:
        first = file.read(1)
        file.seek(0)
        file.write(bytes([first[0] ^ 1]))
    os.utime(path, ns=(state.st_atime_ns, state.st_mtime_ns))


def checked_once(program):
    copy, wrong = Copy(program), []

    def expect(title, *wanted):
        got = copy.run()
        if got != wanted:
            wrong.append("%s: runs, looks: %s in place of %s" % (title, got, wanted))

    expect("the first time", True, True)
    time.sleep(2.1)
    copy.run()
    expect("then", True, False)
    for name in ("HANDLES", "crates/sbl_text/src/lib.rt", "crates/sbl_machine/specs/Lib.antt", "dist/snowbench-x86_64-linux"):
        change(copy.path(name))
        expect("another byte of " + name, False, True)
        change(copy.path(name))
    more = copy.path("crates/sbl_text/src/more.rt")
    open(more, "w", encoding="ascii").close()
    expect("a source more", False, True)
    os.remove(more)
    os.rename(copy.path("crates/sbl_text/src/lib.rt"), more)
    expect("a source with another name", False, True)
    os.rename(more, copy.path("crates/sbl_text/src/lib.rt"))
    time.sleep(2.1)
    expect("all is as before", True, True)
    expect("and checked", True, False)
    shutil.rmtree(copy.path("out"))
    open(copy.path("out"), "w", encoding="ascii").close()
    expect("no place for the states", True, True)
    expect("no place for the states, again", True, True)
    return wrong


def fast_start():
    """The processor time of ./snowbench besides its program, as the least of some runs: less than a fifth of that of the first one, which sums up
    the sources. (The time that passes says nothing on a busy machine, and a number of milliseconds nothing on a slow one.)"""
    room, times = Copy("/bin/true"), []
    environment = {name: value for name, value in os.environ.items() if name != "SNOWBENCH_PROGRAM"}
    time.sleep(2.1)
    for _ in range(12):
        before = resource.getrusage(resource.RUSAGE_CHILDREN)
        subprocess.run([room.path("snowbench"), "run", "my.sbl"], env=environment, stdin=subprocess.DEVNULL, capture_output=True, check=False)
        after = resource.getrusage(resource.RUSAGE_CHILDREN)
        times.append(after.ru_utime + after.ru_stime - before.ru_utime - before.ru_stime)
    first, least = times[0], min(times[1:])
    return [] if least < first / 5 else ["%.0f ms, and %.0f ms at first" % (least * 1000, first * 1000)]


def proving():
    """The status of --prove, with a kit that proves all or nothing."""
    room, wrong = tempfile.mkdtemp(dir=ROOM.name), []
    shutil.copytree(os.path.join(TOP, "tools"), os.path.join(room, "tools"))
    shutil.copy2(SNOWBENCH, room)
    os.makedirs(os.path.join(room, "crates/snowbench_main/src"))
    os.makedirs(os.path.join(room, "crates/snowbench_main/out"))
    for name, text in (
        ("crates.txt", "snowbench_main: clap\n"),
        ("HANDLES", ""),
        ("VERSION", "0\n"),
        ("crates/snowbench_main/src/main.rt", ""),
        ("crates/snowbench_main/args", ""),
        ("crates/snowbench_main/stdin", ""),
        ("crates/snowbench_main/out/snowbench_main", "one program\n"),
        ("rt", '#!/bin/sh\n[ "$1" = version ] && echo kit && exit\n[ -z "$UNPROVED" ]\n'),
    ):
        with open(os.path.join(room, name), "w", encoding="ascii") as file:
            file.write(text)
    for name in ("rt", "crates/snowbench_main/out/snowbench_main"):
        os.chmod(os.path.join(room, name), 0o755)
    environment = {**os.environ, "PATH": room + ":" + os.environ["PATH"]}

    def expect(title, status, text, **more):
        ended = subprocess.run([room + "/snowbench", "--prove"], env={**environment, **more}, capture_output=True, text=True, timeout=PATIENCE)
        if ended.returncode != status or text not in ended.stdout + ended.stderr:
            wrong.append("%s: %s" % (title, ended))

    expect("nothing is proved", 1, "NOT PROVED", UNPROVED="yes")
    expect("no dist/", 0, "dist/ has no program of these sources yet. To put this one there: tools/dist")
    subprocess.run([room + "/tools/dist"], env=environment, check=True, capture_output=True)
    expect("dist/ has the program", 0, "byte for byte")
    change(os.path.join(room, "crates/snowbench_main/out/snowbench_main"))
    expect("another program of the same sources", 1, "differs from the program that was built here")
    with open(os.path.join(room, "HANDLES"), "w", encoding="ascii") as file:
        file.write("more\n")
    expect("other sources", 0, "dist/ has no program of these sources yet")
    return wrong


def streams(program):
    """What docs/SCALE.md says of input and output that do not block, and of a file that may not grow."""
    session, wrong = b"externals ( stem ) define stem as true\n.\n" + b"".join(b"w%d\n" % i for i in range(100000)) + b".\nstems\n", []
    ends = os.pipe()
    os.set_blocking(ends[0], False)
    ended = subprocess.run([program, "session"], stdin=ends[0], capture_output=True, timeout=PATIENCE)
    if (ended.returncode, ended.stderr) != (1, b"snowbench: 70 Read\n"):
        wrong.append("an input that does not block: %s" % ended)
    reader, writer = os.pipe()
    os.set_blocking(writer, False)
    ended = subprocess.run([program, "session"], input=session, stdout=writer, stderr=subprocess.PIPE, timeout=PATIENCE)
    if (ended.returncode, ended.stderr) != (1, b"snowbench: 71 Write\n"):
        wrong.append("an output that does not block: %s" % ended)
    with open(os.path.join(ROOM.name, "grown"), "wb") as file:
        ended = subprocess.run(["bash", "-c", 'ulimit -f 1; exec "$@"', "-", program, "session"], input=session, stdout=file, stderr=subprocess.PIPE, timeout=PATIENCE)
    if ended.returncode != -signal.SIGXFSZ:
        wrong.append("a file that may not grow: %s" % ended)
    for end in (*ends, reader, writer):
        os.close(end)
    return wrong
