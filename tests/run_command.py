# What a user of ./run and tools/setup meets: what is printed where, the exit status,
# the options, folders of any name, what has to be on the machine, and the stack.
#
#   python3 run_command.py
#
# target/bin/surge must be there, built by tools/build. Where ./run is tried on a
# machine that has little, that is a PATH with the commands that every Debian has
# (its essential packages, without perl) and, mostly, rt and its Python.
# The last line is `N passed, M failed`; the exit status is 0 only where M is 0.

import os
import re
import resource
import shutil
import stat
import subprocess
import sys
import tempfile

from gen import cases
from gen.run import Run

HOME = os.path.dirname(os.path.dirname(os.path.abspath(__file__)))
RUN = os.path.join(HOME, "run")
SURGE = os.path.join(HOME, "target", "bin", "surge")
SHOWN = 10
# Every Debian has them, and the bare machine has not: that they are not needed is seen too.
LEFT_OUT = ("perl-base", "dpkg")
NOT_NEEDED = ("perl", "dpkg", "apt-get", "cc", "gcc", "c++", "g++", "gfortran", "ld", "as", "clang")

passed = failed = 0


def check(what, good, *told):
    global passed, failed
    if good:
        passed += 1
        return
    failed += 1
    if failed <= SHOWN:
        print("%s:" % what, *told)


def run(*arguments, command=RUN, **setting):
    return subprocess.run(
        [command, *arguments], stdin=subprocess.DEVNULL, stdout=setting.pop("stdout", subprocess.PIPE),
        stderr=subprocess.PIPE, timeout=600, **setting,
    )


def bare(folder):
    """The listing of the program alone."""
    return subprocess.run([SURGE], cwd=folder, stdout=subprocess.PIPE, stderr=subprocess.DEVNULL).stdout


def write(path, text, executable=False):
    with open(path, "wb") as file:
        file.write(text if isinstance(text, bytes) else text.encode())
    if executable:
        os.chmod(path, 0o755)


def folder_with(root, name, traverse, storm):
    """A folder with the two files; none for a text that is None, a folder for one that is `folder`."""
    folder = os.path.join(root, name)
    os.mkdir(folder)
    for file, text in (("traverse.txt", traverse), ("storm.txt", storm)):
        if text == "folder":
            os.mkdir(os.path.join(folder, file))
        elif text is not None:
            write(os.path.join(folder, file), text)
    return folder


def long_run():
    """A listing far longer than a pipe holds."""
    records = [[60 if k else 0, k % 90, [k % 900, 0, 0], [k % 900, 0, 0]] for k in range(20_000)]
    return Run(300, 25, 0, [[10, 500], [0, 500]], records)


def test_statuses(root):
    """0, 3 and 1: the listing is the program's to the byte, and standard error has the words."""
    good = cases.small_run()
    traverse, storm = good.traverse_text(), good.storm_text()
    for name, texts, status, words in (
        ("whole", (traverse, storm), 0, ("records      3, to 1 h 30 min (5400 s)", "crest        ", "widest band  ", "took         ")),
        ("traverse", (traverse[:-1], storm), 3, ("refused 2 6: ", "in traverse.txt, line 6, point 3", "took         ")),
        ("storm", (traverse, storm[:-1]), 3, ("records      2, ", "refused 2 10: ", "in storm.txt, line 10, record 3, point 3")),
        ("missing", (None, storm), 3, ("refused 1 1: ", "there is no traverse.txt in ")),
        ("neither", (None, None), 3, ("refused 1 1: ", "a wrong folder")),
        ("failed", (traverse, "folder"), 1, ("storm.txt: ", "failed: the system could not read storm.txt", "is a folder")),
        ("failed at once", ("folder", storm), 1, ("traverse.txt: ", "failed: the system could not read traverse.txt")),
    ):
        folder = folder_with(root, name, *texts)
        done = run(folder)
        told = done.stderr.decode()
        check(name, done.returncode == status and done.stdout == bare(folder), done)
        check(name + ", words", all(word in told for word in words), told)
        quiet = run("-q", folder)
        check(name + ", quiet", (quiet.returncode, quiet.stdout) == (status, done.stdout), quiet)
        for word in ("records  ", "crest  ", "widest", "took  "):
            check(name + ", quiet has no summary", word not in quiet.stderr.decode(), quiet.stderr)
        check(name + ", quiet tells what is wrong", bool(quiet.stderr) == (status != 0), quiet.stderr)
    check("--quiet", run("--quiet", os.path.join(root, "whole")).stderr == b"")


def test_usage(root):
    with open(os.path.join(HOME, "include", "surge.h")) as header:
        version = re.search(r'#define FENNHOP_VERSION "(.*)"', header.read()).group(1)
    for option in ("-h", "--help"):
        done = run(option)
        told = done.stdout.decode()
        check(option, done.returncode == 0 and "usage: ./run" in told and not done.stderr, done)
        check(option + " tells the statuses", all(re.search(r"^  %d  " % n, told, re.M) for n in range(4)), told)
    for option in ("-V", "--version"):
        done = run(option)
        check(option, (done.returncode, done.stdout.decode(), done.stderr) == (0, "Fennhop %s\n" % version, b""), done)
    whole = os.path.join(root, "whole")
    for arguments, words in (
        ((), "one folder"), ((whole, whole), "one folder"), (("-x", whole), "no option -x"), (("--fast", whole), "no option --fast"),
        ((os.path.join(root, "nowhere"),), "no folder"), ((os.path.join(whole, "storm.txt"),), "name the folder that it is in"), (("-q",), "one folder"),
        (("",), "no folder"),
    ):
        done = run(*arguments)
        told = done.stderr.decode()
        check("usage %s" % (arguments,), done.returncode == 2 and not done.stdout and words in told and "usage: " in told, done)


def test_folders(root):
    """Any name, from any place."""
    texts = cases.small_run().traverse_text(), cases.small_run().storm_text()
    for name in ("two words", "the storm's", 'a "b"', "$(touch x)", "back\\slash", "*", "-q", "--help", "ünï", "a\nb", "100%s"):
        folder = folder_with(root, name, *texts)
        done = run("--", name, cwd=root)
        check("folder %r" % name, done.returncode == 0 and done.stdout == bare(folder), done)
        write(os.path.join(folder, "storm.txt"), texts[1][:-1])
        done = run("--", name, cwd=root)
        check("refused in %r" % name, done.returncode == 3 and b"storm.txt, line 10" in done.stderr, done)
    check("nothing of a name is carried out", not os.path.exists(os.path.join(root, "x")))
    whole = os.path.join(root, "whole")
    done = run(".", cwd=whole)
    check("the current folder", done.returncode == 0 and done.stdout == bare(whole), done)
    done = run(whole + "/")
    check("a slash at the end", done.returncode == 0 and done.stdout == bare(whole), done)
    os.symlink(RUN, os.path.join(root, "surge"))
    done = run(whole, command=os.path.join(root, "surge"))
    check("by a link", done.returncode == 0 and done.stdout == bare(whole), done)
    done = run("whole", cwd=root, env={**os.environ, "CDPATH": HOME})
    check("CDPATH", done.returncode == 0 and done.stdout == bare(whole), done)


def test_writes(root):
    """Standard output that is full, closed, appended to, or left by its reader."""
    whole = os.path.join(root, "whole")
    with open("/dev/full", "wb") as full:
        done = run(whole, stdout=full)
    check("full", done.returncode == 1 and b"could not be written whole" in done.stderr, done)
    with open("/dev/full", "wb") as full:
        done = run(os.path.join(root, "storm"), stdout=full)
    check("full, refused", done.returncode == 1 and b"could not be written whole" in done.stderr, done)
    done = subprocess.run(["bash", "-c", '"$0" "$1" >&-', RUN, whole], stderr=subprocess.PIPE)
    check("closed", done.returncode == 1 and done.stderr, done)
    path = os.path.join(root, "appended")
    write(path, b"before\n")
    with open(path, "ab") as file:
        check("appended, status", run(whole, stdout=file).returncode == 0)
    with open(path, "rb") as file:
        check("appended", file.read() == b"before\n" + bare(whole))
    long = long_run()
    folder = folder_with(root, "long", long.traverse_text(), long.storm_text())
    started = subprocess.Popen([RUN, folder], stdout=subprocess.PIPE, stderr=subprocess.PIPE)
    first = started.stdout.read(10)
    started.stdout.close()
    told = started.stderr.read()
    check("left by its reader", started.wait() == 1 and first == b"seconds lo" and b"could not be written whole" in told, told)
    check("the march goes on to its end", b"records      20000, " in told, told)
    done = run(folder)
    check("a long listing", done.returncode == 0 and done.stdout == bare(folder), done.returncode)


def test_side_by_side(root):
    """Storms that are run at one time do not disturb each other."""
    whole = os.path.join(root, "whole")
    started = [subprocess.Popen([RUN, whole], stdout=subprocess.PIPE, stderr=subprocess.PIPE) for _ in range(8)]
    for one in started:
        listing, told = one.communicate()
        check("side by side", one.returncode == 0 and listing == bare(whole), one.returncode, told)


def test_stack(root):
    """The stack that the README says is enough, for 65 points, all of the environment apart."""
    with open(os.path.join(HOME, "README.md")) as readme:
        said = int(re.search(r"The program needs (\d+) kB of stack", readme.read()).group(1)) * 1024
    points = [[i, 500] for i in range(64, -1, -1)]
    winds = [[500, 300, 5]] * 65
    run65 = Run(300, 25, 0, points, [[0, 0] + winds, [600, 10] + winds])
    folder = folder_with(root, "points", run65.traverse_text(), run65.storm_text())

    def stack_of(size):
        return subprocess.run(
            [SURGE], cwd=folder, env={}, stdout=subprocess.PIPE, stderr=subprocess.PIPE,
            preexec_fn=lambda: resource.setrlimit(resource.RLIMIT_STACK, (size, size)),
        )

    check("the stack that the README says", stack_of(said).stdout == bare(folder) and bare(folder).count(b"\n") == 3)
    check("half of it is too little: the limit counts", stack_of(said // 2).returncode != 0)


def test_script(root):
    """How the README says that a script tells with the program alone."""
    with open(os.path.join(HOME, "README.md")) as readme:
        line = re.search(r"^    (if surge > listing.txt .*)$", readme.read(), re.M).group(1)
    setting = {**os.environ, "PATH": os.path.dirname(SURGE) + ":" + os.environ["PATH"]}
    for name, whole in (("whole", True), ("traverse", False), ("storm", False), ("neither", False), ("failed", False), ("failed at once", False)):
        folder = os.path.join(root, name)
        done = subprocess.run(["bash", "-c", line], cwd=folder, env=setting, stdout=subprocess.PIPE, stderr=subprocess.PIPE)
        check("a script tells, " + name, (done.stdout, done.stderr) == (b"whole\n" if whole else b"", b""), done)
    folder = os.path.join(root, "whole")
    os.remove(os.path.join(folder, "listing.txt"))
    os.symlink("/dev/full", os.path.join(folder, "listing.txt"))
    done = subprocess.run(["bash", "-c", line], cwd=folder, env=setting, stdout=subprocess.PIPE, stderr=subprocess.PIPE)
    check("a script tells, full disk", (done.stdout, done.stderr) == (b"", b""), done)


# Machines that have little


def bare_machine(root):
    """A folder for PATH with what every Debian has, and no rt."""
    place = os.path.join(root, "bin")
    os.mkdir(place)
    query = ["dpkg-query", "-W", "-f", "${Package} ${Essential}\n"]
    told = subprocess.run(query, stdout=subprocess.PIPE, check=True, text=True).stdout
    packages = [line.split()[0] for line in told.splitlines() if line.endswith(" yes")]
    packages = [package for package in packages if package not in LEFT_OUT]
    listed = subprocess.run(["dpkg-query", "-L", *packages], stdout=subprocess.PIPE, check=True, text=True).stdout
    for path in [*listed.splitlines(), shutil.which("awk")]:
        name = os.path.basename(path)
        if re.match(r"(/usr)?/s?bin/", path) and os.access(path, os.X_OK) and not os.path.lexists(os.path.join(place, name)):
            os.symlink(path, os.path.join(place, name))
    return place


def project(root, name):
    """A copy of the project without what was built."""
    place = os.path.join(root, name)
    os.mkdir(place)
    for part in ("crates.txt", "include", "run", "tools"):
        subprocess.run(["cp", "-a", os.path.join(HOME, part), place], check=True)
    shutil.copytree(os.path.join(HOME, "crates"), os.path.join(place, "crates"), ignore=shutil.ignore_patterns("out"))
    return place


def with_path(*folders):
    return {"PATH": ":".join(folders), "HOME": "/", "LC_ALL": "C.UTF-8"}


def test_needs_rt_alone(root, path):
    """The program is proved and linked where there is rt with its Python, and no compiler, no linker. What `rt` proved before on this machine it
    takes again; the last crate is still to be proved, and the program to be linked."""
    for name in NOT_NEEDED:
        check("no %s on the bare machine" % name, not os.path.exists(os.path.join(path, name)))
    place = project(root, "clean")
    only = os.path.join(root, "only_rt")
    os.mkdir(only)
    for name in ("rt", "python3"):
        os.symlink(os.path.realpath(shutil.which(name)), os.path.join(only, name))
    whole = os.path.join(root, "whole")
    done = run(whole, command=os.path.join(place, "run"), env=with_path(path, only))
    told = done.stderr.decode()
    check("rt alone", done.returncode == 0 and done.stdout == bare(whole), done)
    check("what is proved is named", re.search(r"^  10 of 10: surge proved \(\d+ s\)$", told, re.M), told)
    check("the first build says so", told.startswith("proving and building surge, this once: 10 crates"), told)
    done = run(whole, command=os.path.join(place, "run"), env=with_path(path, only))
    check("nothing is said of a build that is done", done.returncode == 0 and "prov" not in done.stderr.decode(), done)


def stub(place, name, script):
    os.makedirs(place, exist_ok=True)
    write(os.path.join(place, name), "#!/bin/bash\n" + script, executable=True)


def test_builds(root, path):
    """What is said of a build, by an rt that proves nothing."""
    place = project(root, "stubbed")
    stubs = os.path.join(root, "stubs")
    whole = os.path.join(root, "whole")
    start = os.path.join(place, "run")
    done = run(whole, command=start, env=with_path(path))
    told = done.stderr.decode()
    check("no rt", done.returncode == 2 and not done.stdout and "no command rt" in told, done)

    # an rt that proves all but two: one has nothing to do, and one is not proved
    stub(stubs, "rt", """[ "$1" != version ] || exit 0
case $(basename "$PWD") in
    forcing) ;;
    segment) echo broken >&2; exit 1 ;;
    *) echo 'fn x: proved'; echo 'logic=proved' ;;
esac
""")
    done = run(whole, command=start, env=with_path(stubs, path))
    told = done.stderr.decode()
    check("not proved", done.returncode == 2 and not done.stdout and "broken" in told, done)
    for k, name in (1, "ranges"), (2, "records"), (3, "reader"), (4, "files"), (6, "listing"):
        check("named as it is proved", re.search(r"^  %d of 10: %s proved \(\d+ s\)$" % (k, name), told, re.M), told)
    check("unchanged is not named", "of 10: forcing" not in told, told)
    done = run("-q", whole, command=start, env=with_path(stubs, path))
    check("quiet names none", done.returncode == 2 and " of 10: " not in done.stderr.decode() and "broken" in done.stderr.decode(), done)

    # each crate is named when it is proved, and not at the end
    stub(stubs, "rt", '[ "$1" != version ] || exit 0\n[ "$(basename "$PWD")" = ranges ] || sleep 60\necho logic=proved\n')
    started = subprocess.Popen([start, whole], env=with_path(stubs, path), stdout=subprocess.PIPE, stderr=subprocess.PIPE, start_new_session=True)
    lines = [started.stderr.readline() for _ in range(2)]
    os.killpg(started.pid, 9)
    started.communicate()
    check("named at once", re.match(rb"  1 of 10: ranges proved \(\d+ s\)\n", lines[1]), lines)

    # another build holds the lock: that is said, and waited for
    stub(stubs, "rt", "exit 0\n")
    lock = os.path.join(place, "target", "lock")
    holder = subprocess.Popen(["flock", lock, "sh", "-c", "echo held; sleep 60"], stdout=subprocess.PIPE, start_new_session=True)
    holder.stdout.readline()
    started = subprocess.Popen([start, whole], env=with_path(stubs, path), stdout=subprocess.PIPE, stderr=subprocess.PIPE)
    lines = [started.stderr.readline() for _ in range(2)]
    check("another build", lines[1] == b"waiting for another build of this project to end\n" and started.poll() is None, lines)
    os.killpg(holder.pid, 9)
    started.communicate()

    # a program that is stopped in its course
    stub(place, "cut_short", "printf 'seconds low high\\n0 1 2\\n600 1'\nkill -9 $$\n")
    stub(stubs, "rt", "[ \"$1\" != run ] || { mkdir -p out; cp ../../cut_short out/surge; }\n")
    done = run(whole, command=start, env=with_path(stubs, path))
    told = done.stderr.decode()
    check("stopped", done.returncode == 1 and done.stdout.endswith(b"600 1") and "stopped" in told and "cut short" in told, done)


def test_setup(root, path):
    """What is installed is said first, by its packages, and brings nothing that is only recommended."""
    setup = os.path.join(HOME, "tools", "setup")
    tools = os.path.join(root, "apt")
    log = os.path.join(root, "apt.log")
    record = 'echo "$(basename "$0") $*" >> "%s"\necho "$(basename "$0") is called" >&2\n' % log
    stub(tools, "rt", "exit 0\n")
    stub(tools, "apt-get", record)
    stub(tools, "sudo", record + 'exec "$@"\n')

    def called(*arguments):
        write(log, b"")
        done = run(*arguments, command=setup, env=with_path(tools, path))
        with open(log) as file:
            return done, [line for line in file.read().splitlines() if line.startswith("apt-get")]

    done, calls = called("run")
    check("setup run installs nothing", done.returncode == 0 and not calls and not done.stderr, done, calls)
    for task, packages in (
        ("test", ("python3", "gcc", "libc6-dev", "gfortran", "g++", "gnuplot-nox")), ("plot", ("gnuplot-nox",)),
        ("deck", ("gcc", "libc6-dev")),
        ("bench", ("python3", "gcc", "libc6-dev", "gfortran", "valgrind")),
    ):
        done, calls = called(task)
        told = done.stderr.decode().splitlines()
        check("setup " + task, done.returncode == 0 and not done.stdout, done)
        check(task + ": said beforehand", told and told[0].startswith("installing from Debian's packages: "), told)
        install = next((call.split() for call in calls if " install " in call), [])
        check(task + ": no recommended ones", "--no-install-recommends" in install, calls)
        check(task + ": the packages", all(p in install and p in told[0].split() for p in packages), calls, told)
        check(task + ": no others", {p for p in install if not p.startswith("-")} <= {*packages, "apt-get", "install", "time"}, calls)
    for arguments in ((), ("all",), ("run", "test")):
        done, calls = called(*arguments)
        check("setup %s" % (arguments,), done.returncode == 2 and not calls and b"usage: " in done.stderr, done, calls)
    stub(tools, "apt-get", "exit 100\n")
    check("an install that fails", run("plot", command=setup, env=with_path(tools, path)).returncode != 0)
    os.remove(os.path.join(tools, "rt"))
    done = run("run", command=setup, env=with_path(tools, path))
    check("setup without rt", done.returncode == 1 and b"rt" in done.stderr, done)


def main():
    with tempfile.TemporaryDirectory() as root:
        # where the tests run as root, rt runs a program as nobody, who must reach the copies
        os.chmod(root, stat.S_IRWXU | stat.S_IXGRP | stat.S_IXOTH)
        test_statuses(root)
        test_usage(root)
        test_folders(root)
        test_writes(root)
        test_side_by_side(root)
        test_stack(root)
        test_script(root)
        path = bare_machine(root)
        test_needs_rt_alone(root, path)
        test_builds(root, path)
        test_setup(root, path)
    print("%d passed, %d failed" % (passed, failed))
    return 1 if failed else 0


if __name__ == "__main__":
    sys.exit(main())
