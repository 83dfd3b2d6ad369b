"""What bench/run measures, built below target/, and what is said about it on standard error."""
import os
import pathlib
import platform
import shutil
import subprocess
import sys

OUT = pathlib.Path("target/bench")
ORACLE = "target/oracle/oracle"
LIBRARY_DRIVER = OUT / "library"
NOT_HERE = 3
# The functions of the program between main and the run that answers a record, each called in one place.
BELOW_MAIN = "separation::turn", "stream::answer_next"
# A driver's name: Debian's package, and the compiler's words for it.
OTHERS = {
    "libccd": ("libccd-dev", ["-lccd", "-lm"]),
    "bullet": ("libbullet-dev", ["-isystem", "/usr/include/bullet", "-lBulletCollision", "-lLinearMath"]),
}


class Stop(Exception):
    """Why nothing more is measured, and the status that goes with it."""

    def __init__(self, words, status=1):
        super().__init__(words)
        self.status = status


def say(words):
    print(f"bench: {words}", file=sys.stderr)


def has(tool):
    return shutil.which(tool) is not None


def must_run(words, otherwise, stdin=subprocess.DEVNULL, stdout=subprocess.PIPE):
    """What a command prints. Where it fails nothing more is measured: `otherwise` says why, before the end of what it told."""
    try:
        done = subprocess.run(words, stdin=stdin, stdout=stdout, stderr=subprocess.PIPE, text=True, errors="replace")
    except OSError as error:
        raise Stop(f"{otherwise}: {error}", NOT_HERE) from error
    if done.returncode != 0:
        told = ((done.stdout or "") + done.stderr).splitlines()
        raise Stop("\n".join([otherwise, *told[-3:]]), NOT_HERE if done.returncode == NOT_HERE else 1)
    return done.stdout


def rust():
    must_run(["oracle/build"], "the published Rust could not be built, and all is measured by it")


def port():
    """The port's program and library, as paths; nothing for what is left out."""
    given = os.environ.get("PROGRAM"), os.environ.get("LIBRARY")
    if any(given):
        say(f"the port is the given {' and '.join(filter(None, given))}, which this script did not build")
        return given
    if not has("rt"):
        say("no rt here, so the port is left out")
        return None, None
    otherwise = "the port could not be built"
    if platform.machine() != "x86_64":
        say(f"the kit compiles for x86-64, and this is {platform.machine()}: the port is the program of bench/native, and its library is left out")
        return must_run(["bench/native", "separation"], otherwise).strip(), None
    must_run(["tools/built", "separation"], otherwise)
    must_run(["tools/built", "embedding"], otherwise)
    return "target/bin/separation", "target/staticlib/libembedding.a"


def library_driver(library):
    words = [os.environ.get("RUSTC", "rustc"), "--edition", "2021", "-C", "opt-level=3", "-L", "target/oracle/lib", "--extern", "parry3d"]
    words += ["--check-cfg", "cfg(port)", "-o", LIBRARY_DRIVER, "bench/library.rs"]
    if library:
        words += ["--cfg", "port", "-C", f"link-arg={os.path.abspath(library)}"]
    must_run(words, "bench/library.rs did not compile")


def others():
    """The names of the other libraries' drivers that could be built."""
    if not has("g++"):
        say("no g++ here, so libccd and Bullet are left out")
        return []
    return [name for name in OTHERS if other(name)]


def other(name):
    package, words = OTHERS[name]
    source = f"bench/{name}.cpp"
    if subprocess.run(["g++", "-E", source, *words], stdout=subprocess.DEVNULL, stderr=subprocess.DEVNULL).returncode != 0:
        say(f"no {package} here (Debian: apt-get install {package}), so {name} is left out")
        return False
    must_run(["g++", "-std=c++17", "-O3", source, "-o", OUT / name, *words], f"{source} did not compile")
    return True


def inlining(program):
    """Whether LLVM has put all that stands between main and the run into main. Where not, it does not see that the stores are distinct arrays, and
    the program is slower."""
    if not has("nm"):
        return "not known: no nm here"
    symbols = subprocess.run(["nm", program], stdout=subprocess.PIPE, stderr=subprocess.DEVNULL, text=True, errors="replace").stdout.split()
    if "main" not in symbols:
        return "not known: nm finds no symbol main"
    apart = [name for name in BELOW_MAIN if any(symbol.endswith(name) for symbol in symbols)]
    return f"NOT inlined: {', '.join(apart)}" if apart else "inlined"
