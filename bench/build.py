"""What bench/run measures, built: plain C, and the commands that start it and the proved programs. All of it is for x86-64, and runs there."""
import os
import shutil
import subprocess
import sys

HERE = os.path.dirname(os.path.abspath(__file__))
TOP = os.path.dirname(HERE)
EMULATOR = shutil.which("qemu-x86_64")  # of Debian's qemu-user: what it logs is counted, and nothing is timed under it
PLAIN = ["table", "sheet", "clauses", "decode", "text"]


def stop(why):
    print("bench:", why, file=sys.stderr)
    sys.exit(2)


def answer(*command):
    try:
        return subprocess.run(command, stdout=subprocess.PIPE, stderr=subprocess.DEVNULL, check=True).stdout.decode().strip()
    except (OSError, subprocess.CalledProcessError):
        return None


def compiler():
    if not answer("cc", "--version"):
        stop("cc is missing; install the system's C compiler")
    return "cc"


def built(path, command):
    path = os.path.join(TOP, path)
    if not os.path.isfile(path):
        stop("%s is not built; this builds it: %s" % (path, command))
    return path


class Built:
    """The commands: `whole` has ours and plain C's of a program by its name, `inside` the one process with both."""

    def __init__(self, folder):
        self.folder = folder
        self.compiler = compiler()
        for name in [name for name in os.environ if name.startswith("QEMU_")]:
            del os.environ[name]  # settings of the emulator
        # As tools/run starts a program, but without its shell, which would be timed too.
        self.whole = {name: ([built("crates/%s/out/%s" % (name, name), "tools/build " + name)],
                             [self.compiled(name + "_c", "plain/program.c", "plain/%s_program.c" % name)])
                      for name in ("encode", "decode")}
        library = built("target/staticlib/libexports.a", "tools/build exports_c")
        # Linked statically, so that the few calls into the C library are counted with the caller's instructions.
        self.inside = [self.compiled("inside", "inside.c", library, "-static")]

    def compiled(self, name, *others):
        program = os.path.join(self.folder, name)
        sources = [os.path.join(HERE, "plain", part + ".c") for part in PLAIN]
        others = [os.path.join(HERE, one) if one.endswith(".c") else one for one in others]
        subprocess.run([self.compiler, "-O2", "-Wall", "-Wextra", "-I", os.path.join(TOP, "include"), "-o", program] + sources + others, check=True)
        return program

    def describe(self):
        version = lambda command: answer(command, "--version").split("\n")[0]
        print("processor %s; C by %s%s" % (os.uname().machine, version(self.compiler), "; instructions by " + version(EMULATOR) if EMULATOR else ""))
