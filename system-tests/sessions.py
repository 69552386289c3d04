"""Reads files of console cases, and runs a case over the program. cases/README.md says how such a file is written."""
import contextlib
import dataclasses
import fcntl
import os
import subprocess

# What a letter after a backslash means in a quoted text. Any other sign means itself.
MEANINGS = {"n": "\n", "t": "\t", "r": "\r"}
# What is wrong with a line outside of the cases.
NOT_READ = "not read"
NO_NAME = "an included file has only names and comments"
NAMED_TWICE = "this name has a text already"
NO_FILE = "there is no such file"
# No session takes longer, in seconds.
LONGEST = 120
# The commands that have a socket or a clock, which the library of cases-host.c then gives them.
ON_A_HOST = ("serve", "check", "test")
# The longest argument that Linux hands to a program. A longer one is put into a file, which that library reads.
LONGEST_WORD = 131_071
# The bytes of a database that a server locks.
LOCKED = 0x4000_0000, 512
# How many bytes a damaged log has behind its last commit.
DAMAGED = 4144
# The lengths of a log's header, of a frame and of the salts, and the offsets of the salts in a log and in a frame (SQLite's file
# format, section 4).
LOG_HEADER, FRAME, SALTS = 32, 24 + 4096, 8
SALTS_OF_LOG, SALTS_OF_FRAME = 16, 8


@dataclasses.dataclass
class Case:
    """A command, the files that were given since the case before, and what the command must write."""

    title: str
    words: list
    files: dict
    input: str = ""
    output: str = ""
    faults: str = ""
    record: str = ""
    status: int = 0

    def text(self, how):
        """What was expected or came, for a reader."""
        return f"{how}, status {self.status}:\n{self.output}{self.faults}{self.record}"

    def has(self, came):
        """Whether another case has what this one expects."""
        texts = (self.output, came.output), (self.faults, came.faults), (self.record, came.record)
        return self.status == came.status and all(is_meant(*it) for it in texts)


def lines_of(text):
    lines = text.split("\n")
    return lines[:-1] if lines[-1] == "" else lines


def is_meant(wanted, written):
    """Whether a text has the expected lines, each with its end."""
    if written and not written.endswith("\n"):
        return False
    wanted, written = lines_of(wanted), lines_of(written)
    return len(wanted) == len(written) and all(map(is_meant_line, wanted, written))


def is_meant_line(wanted, written):
    """Whether a line is the expected one; `..` at the end of that stands for any rest."""
    return written.startswith(wanted[:-2]) if wanted.endswith("..") else written == wanted


class Names:
    """Texts by their names."""

    def __init__(self):
        self.texts = {}

    def define(self, name, text):
        """Gives a name to a text. Returns whether it had none."""
        is_new = name not in self.texts
        self.texts[name] = text
        return is_new

    def expand(self, line):
        """The line with each name replaced by its text. An unknown name stays."""
        first, *pieces = line.split("${")
        found = [first]
        for piece in pieces:
            reference, end, rest = piece.partition("}")
            found += [self.text_of(reference), rest] if end else [piece]
        return "".join(found)

    def text_of(self, reference):
        """The text of `name`, or of `name:FROM:COUNT`, in bytes."""
        name, *bounds = reference.split(":")
        text = self.texts.get(name)
        if text is None or not all(it.isdecimal() for it in bounds):
            return reference
        if not bounds:
            return text
        start, count = int(bounds[0]), int(bounds[1]) if bounds[1:] else None
        part = text.encode()[start:]
        if start > len(text.encode()) or (count or 0) > len(part):
            return reference
        return part[:count].decode(errors="backslashreplace")

    def words(self, line):
        """The words of a line, which blanks separate. A text between `"` is taken as it is, but for what a backslash begins."""
        found, word, is_quoted, is_escaped = [], None, False, False
        for sign in line:
            if is_escaped:
                word, is_escaped = word + MEANINGS.get(sign, sign), False
            elif sign == '"':
                word, is_quoted = word or "", not is_quoted
            elif sign == "\\" and is_quoted:
                is_escaped = True
            elif sign != " " or is_quoted:
                word = (word or "") + sign
            elif word is not None:
                found.append(word)
                word = None
        return [self.expand(it) for it in (found if word is None else [*found, word])]

    def definition(self, line):
        """The name and the text of `name = WORD` or `name = COUNT * WORD`, if the line is one of these."""
        match self.words(line):
            case [name, "=", text]:
                return name, text
            case [name, "=", count, "*", text] if count.isdecimal():
                return name, int(count) * text
        return None


class Reader:
    """Reads a file of cases, line by line. `faults` gets a line for each that has a fault."""

    def __init__(self, path, faults):
        self.path, self.folder, self.faults = path, os.path.dirname(path), faults
        self.names, self.case = Names(), None
        # The file that was given last, its bytes, and the files that were given since the case before.
        self.file, self.bytes, self.given = None, b"", {}

    def cases(self):
        """The cases, each once a line ends it: an empty line, or the next command."""
        with open(self.path, encoding="utf-8", newline="") as it:
            lines = lines_of(it.read())
        for number, line in enumerate([*lines, ""], 1):
            begins = line.startswith("$ kdhcp")
            if (begins or line == "") and self.case is not None:
                yield self.case
                self.case = None
            if begins:
                title = f"{os.path.basename(self.path)}: line {number}: {line}"
                self.case = Case(title, self.names.words(line.removeprefix("$ kdhcp")), self.given)
                self.given = {}
            elif line != "":
                fault = self.take(line)
                if fault is not None:
                    self.refuse(os.path.basename(self.path), number, line, fault)

    def refuse(self, name, number, line, fault):
        self.faults.append(f"{name}: line {number}: {fault}: {line}")

    def take(self, line):
        """Takes a line that neither begins nor ends a case. Returns what is wrong with it, if anything."""
        text = self.names.expand(line)
        if self.case is not None:
            return self.take_of_case(text)
        mark, blank, rest = text.partition(" ")
        if line.startswith("#"):
            return None
        if mark == "include" and blank:
            return self.include(rest)
        if mark == "@" and blank:
            return self.put(rest, b"")
        if mark == "|" and blank and self.file is not None:
            return self.put(self.file, self.bytes + (b"\n" if self.bytes else b"") + rest.encode())
        with contextlib.suppress(ValueError):
            if mark == "%" and blank and self.file is not None:
                return self.put(self.file, self.bytes + bytes.fromhex(rest.replace(" ", "")))
        return self.define(line, NOT_READ)

    def take_of_case(self, text):
        """Takes a line of a case after its command."""
        case, (mark, blank, rest) = self.case, text.partition(" ")
        if mark in ("<@", ">@") and blank:
            try:
                with open(os.path.join(self.folder, rest), encoding="utf-8", newline="") as it:
                    content = it.read()
            except FileNotFoundError:
                return NO_FILE
            case.input, case.output = (content, case.output) if mark == "<@" else (case.input, content)
        elif mark == "<" and blank:
            case.input += f"{rest}\n"
        elif mark == "!" and blank:
            case.faults += f"{rest}\n"
        elif mark == "=" and blank:
            case.record += f"{rest}\n"
        elif mark == "?" and rest.isdecimal():
            case.status = int(rest)
        else:
            case.output += text.removeprefix("\\") + "\n"
        return None

    def put(self, name, content):
        """Gives a file its bytes."""
        self.file, self.bytes, self.given[name] = name, content, content

    def include(self, name):
        """Takes the names of a file, which has nothing else but comments."""
        try:
            with open(os.path.join(self.folder, name), encoding="utf-8", newline="") as it:
                lines = lines_of(it.read())
        except FileNotFoundError:
            return NO_FILE
        for number, line in enumerate(lines, 1):
            fault = self.define(line, NO_NAME) if line and not line.startswith("#") else None
            if fault is not None:
                self.refuse(name, number, line, fault)
        return None

    def define(self, line, other):
        """Takes a line that gives a text a name which has none yet. Any other line has the fault `other`."""
        found = self.names.definition(line)
        if found is None:
            return other
        return None if self.names.define(*found) else NAMED_TWICE


def option(words, name):
    """The value of an option in an argument of its own or after `=`, if it is there."""
    for index, word in enumerate(words):
        if word == name and index + 1 < len(words):
            return words[index + 1]
        if word.startswith(f"{name}="):
            return word.removeprefix(f"{name}=")
    return None


class Room:
    """The folder in which the cases of one file run. It has a link to each file that lies beside that of the cases. In it
    another process has the database locked.db, and nothing can be made in `none`, which leads to a folder that is not there."""

    def __init__(self, folder, data, command, library):
        self.folder, self.command, self.library = os.path.realpath(folder), command, library
        for it in os.scandir(data):
            os.symlink(it.path, f"{self.folder}/{it.name}")
        os.symlink("absent/none", f"{self.folder}/none")
        self.lock = open(f"{self.folder}/locked.db", "wb")
        fcntl.lockf(self.lock, fcntl.LOCK_EX | fcntl.LOCK_NB, LOCKED[1], LOCKED[0])
        self.is_damaged = False

    def write(self, name, content):
        """Writes a file, and never one that a link of this folder leads to."""
        path = os.path.join(self.folder, name)
        if not f"{os.path.realpath(os.path.dirname(path))}/".startswith(f"{self.folder}/"):
            raise ValueError(f"{name} is not a file of the folder of these cases")
        os.makedirs(os.path.dirname(path), exist_ok=True)
        if os.path.islink(path):
            os.remove(path)
        with open(path, "wb") as it:
            it.write(content)

    def damage(self):
        """Puts a frame with a wrong checksum behind the last frame of the log of damaged.db, and ends the log after it."""
        with open(f"{self.folder}/damaged.db-wal", "r+b") as it:
            log = it.read()
            salts, end = log[SALTS_OF_LOG : SALTS_OF_LOG + SALTS], LOG_HEADER
            while log[end + SALTS_OF_FRAME : end + SALTS_OF_FRAME + SALTS] == salts:
                end += FRAME
            it.seek(end)
            it.write((bytes(SALTS_OF_FRAME) + salts).ljust(DAMAGED, b"\0"))
            it.truncate()
        self.is_damaged = True

    def host(self, words, record):
        """The environment of a session: empty, unless its command needs the library."""
        host = {}
        if words[:1] and words[0] in ON_A_HOST:
            host["CASE_COMMAND"] = words[0]
        if record is not None and record.startswith("lines-"):
            host["CASE_LINES"] = record.removeprefix("lines-")
        for index, word in enumerate(words):
            if len(word.encode()) > LONGEST_WORD:
                self.write("long-word", word.encode())
                words[index] = host["CASE_WORD"] = "long-word"
        return {"LD_PRELOAD": self.library, **host} if host else {}

    def run(self, case):
        """Runs a case. Returns what came, as a case."""
        for name, content in case.files.items():
            self.write(name, content)
        words, record = [*case.words], option(case.words, "--record")
        if words[:1] == ["check"] and "damaged.db" in words and not self.is_damaged:
            self.damage()
        how = {"cwd": self.folder, "env": self.host(words, record), "input": case.input.encode()}
        try:
            ran = subprocess.run([*self.command, *words], capture_output=True, timeout=LONGEST, check=False, **how)
        except subprocess.TimeoutExpired as it:
            return Case(case.title, words, {}, output=text_of(it.stdout), faults=text_of(it.stderr), status=f"none in {LONGEST} s")
        texts = text_of(ran.stdout), text_of(ran.stderr), self.taken(record)
        return Case(case.title, words, {}, "", *texts, ran.returncode)

    def taken(self, record):
        """What a record has. The next session begins another."""
        if record is None or not os.path.isfile(f"{self.folder}/{record}"):
            return ""
        with open(f"{self.folder}/{record}", "rb") as it:
            content = it.read()
        os.remove(f"{self.folder}/{record}")
        return text_of(content)


def text_of(content):
    """The text of bytes; those that are not UTF-8 are spelled out."""
    return (content or b"").decode(errors="backslashreplace")
