"""Rows of the programs: the files of a row are made in a folder, the program runs there, and what it prints, its status and the files
that it leaves are the lines of the answer.

Special files are real ones. A row with a file that may not be read or written runs as `nobody` where this is run by root."""
import errno
import os
import re
import resource
import shutil
import signal
import subprocess
import tempfile

from row_format import BadRow, LeftOut, bytes_of, lines_of_bytes

SECONDS = 120
# the memory of a program that reads a file that is too large for it, and the size of that file
MEMORY, HUGE = 1 << 28, 1 << 32
NOBODY = 65534
WORDS = "locked", "huge", "directory", "beneath", "denied", "broken"
STANDARD_INPUT = "/dev/stdin"
PREFIX = "rows.of.nuigatre."


class Special:
    """A line that makes a special file: its word, and the path."""

    def __init__(self, word, path):
        self.word, self.path = word, path


def files_of(row):
    """The bytes of each file of a row by its path, and the special ones."""
    files, special, path, is_text = {}, [], None, False
    for line in row.input:
        word, _, rest = line.partition(" ")
        if word in ("text", "file"):
            path, is_text = rest, word == "text"
            files[path] = b""
        elif word in WORDS:
            special.append(Special(word, rest))
        elif path is None:
            raise BadRow("no file", line)
        else:
            files[path] += line.encode() + b"\n" if is_text else bytes_of([line])
    return files, special


def put(folder, path, data):
    """A file with these bytes."""
    place = os.path.join(folder, path)
    os.makedirs(os.path.dirname(place), exist_ok=True)
    with open(place, "wb") as file:
        file.write(data)


def make_special(folder, it):
    """Makes a special file."""
    place = os.path.join(folder, it.path)
    if it.word == "beneath":
        if not os.path.exists(os.path.dirname(place)):
            put(folder, os.path.dirname(it.path), b"")
    elif it.word == "directory":
        os.makedirs(place)
    elif it.word == "broken":
        # a link to itself
        os.symlink(os.path.basename(place), place)
    elif it.word == "huge":
        put(folder, it.path, b"")
        os.truncate(place, HUGE)
    elif it.word == "denied":
        put(folder, it.path, b"")
        os.chmod(place, 0)
    elif "/" in it.path:
        # another user's file in a folder where each user may replace the own files alone
        if os.geteuid():
            raise LeftOut("root alone makes another user's file")
        put(folder, it.path, b"")
        os.chmod(os.path.dirname(place), 0o1777)
    else:
        # nothing is made in a folder that is closed
        os.chmod(folder, 0o555)


class Folder:
    """A folder in which a program runs, with the files of a row."""

    def __init__(self, files, special):
        self.path, self.special, self.beside = tempfile.mkdtemp(prefix=PREFIX), special, None
        self.given = {path: data for path, data in files.items() if path != STANDARD_INPUT}
        self.input = files.get(STANDARD_INPUT)
        os.chmod(self.path, 0o777)
        try:
            for path, data in self.given.items():
                put(self.path, path, data)
            for it in special:
                make_special(self.path, it)
        except OSError as why:
            self.remove()
            raise LeftOut("a file can't be made here: %s" % why.strerror) from None
        except LeftOut:
            self.remove()
            raise

    def copied(self, program):
        """A copy of a program that each user may run."""
        self.beside = tempfile.mkdtemp(prefix=PREFIX)
        os.chmod(self.beside, 0o755)
        copy = os.path.join(self.beside, os.path.basename(program))
        shutil.copyfile(program, copy)
        os.chmod(copy, 0o755)
        return copy

    def remove(self):
        os.chmod(self.path, 0o777)
        for path in filter(None, (self.path, self.beside)):
            shutil.rmtree(path, ignore_errors=True)

    def made(self):
        """What the row doesn't have: the paths of the directories without others in them, and the bytes of each file."""
        given = {os.path.normpath(path): data for path, data in self.given.items()}
        own = {os.path.normpath(os.path.dirname(it.path) if it.word == "beneath" else it.path) for it in self.special}
        above = {parent for path in given for parent in parents(path)}
        directories, files = [], {}
        for folder, names, inside in os.walk(self.path):
            at = os.path.relpath(folder, self.path)
            if at != "." and not names and at not in above and at not in own:
                directories.append(at)
            for name in inside:
                path, place = os.path.normpath(os.path.join(at, name)), os.path.join(folder, name)
                if path in own or os.path.islink(place):
                    continue
                with open(place, "rb") as file:
                    data = file.read()
                if given.get(path) != data:
                    files[path] = data
        return directories, files


def parents(path):
    while os.path.dirname(path):
        path = os.path.dirname(path)
        yield path


def runs_as(special):
    """The user that a program runs as: `nobody` where root may read and write all."""
    return {"user": NOBODY, "group": NOBODY, "extra_groups": []} if os.geteuid() == 0 and special else {}


def limits(folder, is_open, out):
    """What is done in the process of a program before it begins; None where it is nothing."""
    is_huge = any(it.word == "huge" for it in folder.special)

    def limit():
        if out:
            signal.signal(signal.SIGXFSZ, signal.SIG_IGN)
            resource.setrlimit(resource.RLIMIT_FSIZE, (out, out))
        if is_huge:
            resource.setrlimit(resource.RLIMIT_AS, (MEMORY, MEMORY))
        if not is_open:
            os.close(0)

    return limit if out or is_huge or not is_open else None


def run(program, arguments, folder, out=None, err=None):
    """What a program prints, on both outputs, and its status. `out` and `err` are how many bytes these take, and where they take
    none /dev/full; all by None. Standard input is closed where an argument asks for it, and the row doesn't have it."""
    is_open = folder.input is not None or not any(re.fullmatch(r"(?:.*=)?-", it) for it in arguments)
    how = {"cwd": folder.path, "timeout": SECONDS, "check": False, "preexec_fn": limits(folder, is_open, out)}
    user = runs_as(folder.special)
    how.update(user, **({"input": folder.input or b""} if is_open else {}))
    with open(full_file() if 0 in (out, err) else os.devnull, "wb") as full, tempfile.TemporaryFile() as some:
        outputs = [full if count == 0 else some if count else subprocess.PIPE for count in (out, err)]
        try:
            ran = subprocess.run([folder.copied(program) if user else program, *arguments], stdout=outputs[0], stderr=outputs[1], **how)
        except subprocess.TimeoutExpired:
            raise LeftOut("%d seconds are not enough here" % SECONDS) from None
        except (PermissionError, subprocess.SubprocessError) as why:
            if not user and not how["preexec_fn"]:
                raise
            raise LeftOut("no program runs here as another user, or with less memory: %s" % why) from None
        some.seek(0)
        return (some.read() if out else ran.stdout or b"", ran.stderr or b""), ran.returncode


def printed_lines(word, data):
    """What was printed, in lines after a word."""
    try:
        return [(word + " " + line) for line in data.decode().removesuffix("\n").split("\n")] if data else []
    except UnicodeDecodeError:
        return lines_of_bytes(word, data)


def file_lines(row, directories, files):
    """The directories and files that were made, in the order of the row's answer."""
    wanted = {line: at for at, line in enumerate(row.answer)}
    blocks = [["made " + path] for path in directories]
    blocks += [["wrote " + path, *lines_of_bytes("bytes", data)] for path, data in files.items()]
    blocks.sort(key=lambda block: (block[0].startswith("wrote"), wanted.get(block[0], len(wanted)), block[0]))
    return [line for block in blocks for line in block]


def fit(doors, special):
    """Special files of a row that its program can read."""
    if doors.is_checked and any(it.word == "huge" for it in special):
        raise LeftOut("what checks each access of memory needs more of it")
    return special


def answer_run(row, doors, name, arguments, out=None, err=None):
    """A run of wcplan or wcwhy."""
    files, special = files_of(row)
    folder = Folder(files, fit(doors, special))
    try:
        (printed, said), status = run(doors.program(name), arguments, folder, out, err)
        lines = [*printed_lines("printed", printed), *printed_lines("error", said), "status %d" % status]
        return lines + file_lines(row, *folder.made())
    finally:
        folder.remove()


def of_program(name, err=None):
    return lambda row, doors: answer_run(row, doors, name, row.arguments, err=err)


def failing(name):
    """The first argument is how many bytes the output takes."""
    return lambda row, doors: answer_run(row, doors, name, row.arguments[1:], out=row.number(0))


def full_file():
    """An output that takes nothing."""
    if not os.path.exists("/dev/full"):
        raise LeftOut("/dev/full is missing here")
    return "/dev/full"


def is_read_only(path):
    """Whether the system refuses a file since its file system can only be read."""
    try:
        os.close(os.open(path, os.O_WRONLY | os.O_CREAT | os.O_EXCL))
        os.remove(path)
    except OSError as why:
        return why.errno == errno.EROFS
    return False


def read_only_file():
    """A path on a file system that can only be read."""
    try:
        with open("/proc/mounts", encoding="utf-8") as mounts:
            places = [line.split()[1] for line in mounts if "ro" in line.split()[3].split(",")]
    except OSError:
        places = []
    paths = [os.path.join(place, "nuigatre.wasm") for place in places]
    found = next(filter(is_read_only, paths), None)
    if found is None:
        raise LeftOut("no file system here can only be read")
    return found


# the special files of a run of wctrim, and what links to where nothing can be written
MODULE_FILES = ("huge", "huge.wasm"), ("locked", "none/out.wasm"), ("broken", "broken.wasm")
LINKS = {"full.wasm": full_file, "fixed.wasm": read_only_file}


def special_of(row):
    return [Special(word, path) for word, path in MODULE_FILES if path in row.arguments]


def module_folder(row):
    """The folder of a run of wctrim: the bytes of in.wasm, and what can't be read or written."""
    links = {path: goal() for path, goal in LINKS.items() if path in row.arguments}
    folder = Folder({"in.wasm": bytes_of(row.input)}, special_of(row))
    for path, goal in links.items():
        os.symlink(goal, os.path.join(folder.path, path))
    return folder


def answer_run_program(row, doors):
    """A run of wctrim."""
    fit(doors, special_of(row))
    folder = module_folder(row)
    try:
        (printed, said), status = run(doors.program("wctrim"), row.arguments, folder)
        files = folder.made()[1]
        files.pop("in.wasm", None)
        lines = [*printed_lines("printed", printed), *printed_lines("error", said), "status %d" % status]
        return lines + ([line for data in files.values() for line in lines_of_bytes("bytes", data)] or ["no file"])
    finally:
        folder.remove()


CALLS = {
    "run_program": answer_run_program,
    "wcplan": of_program("wcplan"),
    "wcplan_mute": of_program("wcplan", err=0),
    "wcplan_failing": failing("wcplan"),
    "wcwhy": of_program("wcwhy"),
    "wcwhy_failing": failing("wcwhy"),
}
