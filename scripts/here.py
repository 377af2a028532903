"""here: what lies in this clone, for the scripts: the programs; the plain program of bench/peer, with which they are compared; and the worked
cases of crates/worked_cases. The scripts `check-*` take the programs as they are built (`built`), all others build them where they have to (`program`)."""
import os, shutil, subprocess, sys

TOP = os.path.dirname(os.path.dirname(os.path.abspath(__file__)))
CASES = os.path.join(TOP, "crates", "worked_cases", "data")
SUITES = "spin dmcs alock mcs rw seq combine words check faults by_hand".split()
# The status of a check that found no program, and so tried nothing.
NOTHING_TRIED = 77


def caller():
    return os.path.basename(sys.argv[0])


def built(name="rmalock"):
    """The path of a program that is built already, or that the environment names (`program` says how). Where there is none, that is said, and the
    script ends with the status of nothing tried."""
    other, found = os.environ.get(name.upper()), ""
    if other:
        found = os.path.abspath(other)
    else:
        told = subprocess.run([os.path.join(TOP, "scripts", "run-program"), "--built", name], stdout=subprocess.PIPE, universal_newlines=True)
        found = told.stdout.strip()
    if not os.access(found, os.X_OK):
        print("%s: %s isn't built, nothing tried" % (caller(), other or name), flush=True)
        sys.exit(NOTHING_TRIED)
    return found


def program(name="rmalock"):
    """The path of a program, which is built first where it has to be: proved, or where RMALOCK_UNPROVED is 1 without its proofs. The
    environment may name another one, as RMALOCK, RMALOCK_PICTURE, RMALOCK_STEPS, RMALOCK_STATE or RMALOCK_FINISH."""
    other = os.environ.get(name.upper())
    if other:
        return os.path.abspath(other)
    wrapper = os.path.join(TOP, name.replace("_", "-"))
    status = subprocess.run([wrapper], stdin=subprocess.DEVNULL, stdout=subprocess.DEVNULL).returncode
    if status == 70:
        sys.exit(70)
    unproved = ".unproved" if os.environ.get("RMALOCK_UNPROVED") == "1" else ""
    built = os.path.join(TOP, "crates", name, "out", name + unproved)
    return built if os.path.exists(built) else wrapper


def timed_program():
    """The path of rmalock, whose time is taken. The build without proofs checks itself as it runs, which makes it slow: that is said."""
    if os.environ.get("RMALOCK_UNPROVED") == "1":
        print("%s: the unproved build checks itself as it runs, so its times tell nothing of the proved one's" % caller(), flush=True)
    return program()


def peer(left_out):
    """The path of the plain program, which rustc builds; nothing where there is no rustc, and then it is said what is left out."""
    done = subprocess.run([os.path.join(TOP, "bench", "peer", "build")], stdout=subprocess.PIPE, universal_newlines=True)
    if done.returncode == 0:
        return done.stdout.strip()
    if shutil.which("rustc"):
        sys.exit("%s: the plain program of bench/peer can't be built" % caller())
    print("%s: without the plain program of bench/peer, %s" % (caller(), left_out), flush=True)
    return None


class Case:
    """A command line with its files, and the status and the output that must come of it."""
    def __init__(self, name):
        self.name, self.words, self.files, self.status, self.output = name, [], {}, None, b""

    def add(self, line):
        """One more line. The lines of a text belong to the output once the status is told, and else to the last file."""
        kind, _, rest = line.partition(b" ")
        if line[:1] in (b"|", b"\\"):
            text = line[1:] + (b"\n" if line[:1] == b"|" else b"")
            if self.status is None:
                self.files[self.last] += text
            else:
                self.output += text
        elif kind == b"word":
            self.words.append(rest.decode())
        elif kind == b"file":
            self.last = rest.decode()
            self.files[self.last] = b""
        elif kind == b"status":
            self.status = int(rest)
        else:
            sys.exit("here: no line of a case: %r" % line)

    def put_files(self, folder):
        for name, text in self.files.items():
            with open(os.path.join(folder, name), "wb") as out:
                out.write(text)


def cases(suite):
    """The worked cases of a suite; docs/CASES.md has their form."""
    found = []
    with open(os.path.join(CASES, suite), "rb") as lines:
        for line in lines.read().split(b"\n"):
            if line.startswith(b"case "):
                found.append(Case(line[5:].decode()))
            elif line:
                found[-1].add(line)
    return found
