"""A client of Poltyqen for scripts, by Python's standard library alone.

    import poltyqen

    with poltyqen.Index("demo/store", "demo/logs") as index:
        index.create(CONFIGURATION)
        index.ingest()
        found = index.search("level:error AND fox", max_hits=5, sort="-size")
        print(found.num_hits, found.hits)
        print(index.aggregate({"levels": {"terms": {"field": "level"}}}))

An index is two folders that stand already: one for what the program keeps, one with a file of JSON lines for each partition.
Searches, deletes and indexing go through one process of the program, its command `drive`, which is started when it is needed
and stays open. While it is open no other program may write to the index, so an `Index` is closed, or used in a `with`, as a
file is. Whatever ends the process, nothing is lost.

What is not done is raised as a `PoltyqenError`: `RequestRefused`, `StepFailed` or `ProgramEnded`.
"""
import collections
import dataclasses
import json
import os
import re
import subprocess
import threading
import time

__all__ = [
    "Deleted", "Description", "Drive", "Found", "Index", "Ingested", "PoltyqenError", "ProgramEnded", "RequestRefused", "Span",
    "Split", "StepFailed", "Upkeep", "quoted",
]

# The name under which requests are asked.
CLIENT = "a"
# The program takes lines of so many bytes at most.
LONGEST_LINE = 2_097_152
# It takes an input of twice as many bytes at most: behind this many a new process is begun.
LONG_INPUT = 536_870_912
# So many bytes are given at once at most, so that they fit the pipe while nobody reads what is said to them.
SLICE = 32_768
# So many steps that fail one behind the other say that a log can't be read at all.
MOST_FAULTS = 1_000
# Indexers of the program: one takes all partitions in, the other those that are named.
OF_ALL, OF_SOME = 0, 1

# How requests are written.
JSON = json.JSONEncoder(ensure_ascii=False, allow_nan=False, separators=(",", ":"))

# What a step says behind which its actor goes on.
GOES_ON = ("checkpoint", "read", "staged", "uploaded", "published", "stale", "planned", "fetched", "replaced", "raised", "lost",
           "expired", "marked", "doomed", "removed", "swept")

# What a status says that comes without a line.
SILENT = {6: "writefault", 11: "memory"}
# The statuses whose words behind the first say where: of a configuration, a schedule, the store, a limit.
PLACED = (2, 3, 7, 10)


# ---- what is raised

class PoltyqenError(Exception):
    """Something was not done.

    kind      one word that says why, as docs/FORMATS.md has it: of a refused request the refusal's name, as `Syntax`, of all
              else the first word that the program said, as `storefault` or `noindex`
    place     where, if it is told: the byte of the query, a field, a key, a path of the configuration; else None
    words     the words that the program said
    sentence  what it said to people, which may be empty
    """

    def __init__(self, kind, place=None, words=(), sentence=""):
        super().__init__(kind, place)
        self.kind, self.place, self.words, self.sentence = kind, place, list(words), sentence

    def __str__(self):
        where = "" if self.place is None else f" at {self.place}"
        return f"{self.kind}{where}" + (f": {self.sentence}" if self.sentence else "")


class ProgramEnded(PoltyqenError):
    """The program ended with a status that is not 0, or was killed: then the status is the signal's number below 0."""

    def __init__(self, status, words=(), sentence=""):
        kind = words[0] if words else SILENT.get(status, "killed" if status < 0 else "ended")
        place = None
        if status in PLACED and len(words) > 1:
            place = words[1] if status == 10 else " ".join(words[1:])
        super().__init__(kind, place, words, sentence)
        self.status = status


class RequestRefused(PoltyqenError):
    """A search or a delete was refused. `error` has all that the reply keeps of it."""

    def __init__(self, error, query="", sentence=""):
        key = next((it for it in ("at", "name", "field", "key") if it in error), None)
        kept = ", ".join(f"{it} {value}" for it, value in error.items() if it not in ("kind", key))
        super().__init__(error["kind"], error.get(key), [error["kind"]], sentence or kept)
        self.error, self.query = error, query

    def __str__(self):
        if "at" not in self.error:
            return super().__str__()
        # The place counts bytes, and a person counts characters.
        before = self.query.encode()[:self.error["at"]].decode(errors="ignore")
        line = before.rfind("\n") + 1
        shown = self.query[line:].split("\n", 1)[0]
        return f"{self.kind} at byte {self.place} of the query\n    {shown}\n    {' ' * (len(before) - line)}^"


class StepFailed(PoltyqenError):
    """A step of indexing, merging, deleting or collecting failed. What was done before it is done; it may be tried again."""


# ---- what is answered

@dataclasses.dataclass(frozen=True)
class Found:
    """What a search found: how many documents match, those of the page, what was counted, over which revision of the index."""

    num_hits: int
    hits: list
    aggregations: dict
    revision: int


@dataclasses.dataclass(frozen=True)
class Deleted:
    """A delete that was added: its number among the deletes, and the revision of the index that has it."""

    opstamp: int
    revision: int


@dataclasses.dataclass(frozen=True)
class Ingested:
    """How many records were read, those that were refused among them, and how many splits were made of them."""

    records: int
    splits: int


@dataclasses.dataclass(frozen=True)
class Upkeep:
    """How many merges were done, how many splits were made anew without what was deleted, and how many files were deleted."""

    merges: int
    rewritten: int
    files: int


@dataclasses.dataclass(frozen=True)
class Description:
    """An index as a whole: its revision, its last delete (0 for none), how many splits it has, how many documents are searched
    and how many records were refused, and of each partition how many records were taken in."""

    revision: int
    opstamp: int
    staged: int
    published: int
    marked: int
    docs: int
    rejected: int
    checkpoints: dict


@dataclasses.dataclass(frozen=True)
class Span:
    """Records of a partition, from a place up to another, the delete before them and the last one that was applied."""

    partition: str
    start: int
    end: int
    admitted: int
    applied: int


@dataclasses.dataclass(frozen=True)
class Split:
    """A split: its number, its state (`staged`, `published` or `marked`), its documents, refused records and merges, its least
    and greatest time in seconds or None, and the records that it has."""

    number: int
    state: str
    docs: int
    rejected: int
    merges: int
    times: tuple
    spans: tuple


# ---- the program

class Drive:
    """The command `drive` at work on two folders: each line that it is given is answered by one line. What it says to people as
    it ends goes where `stderr` says, as of `subprocess.Popen`."""

    def __init__(self, program, store, logs, stderr=subprocess.PIPE):
        self.process = subprocess.Popen([program, store, logs, "drive"], stdin=subprocess.PIPE, stdout=subprocess.PIPE,
                                        stderr=stderr, bufsize=0)
        self.given, self._out, self._rest = 0, self.process.stdout.fileno(), b""

    def line(self, text):
        """Gives a line, and returns what is said to it."""
        return self._answers(text.encode() + b"\n", 1)[0]

    def lines(self, text, count):
        """Gives the same line so often, at once, and returns what is said to each."""
        line = text.encode() + b"\n"
        most, said = max(1, SLICE // len(line)), []
        while count > most:
            said += self._answers(line * most, most)
            count -= most
        return said + self._answers(line * count, count)

    def ask(self, text):
        """The reply to a request's text. It is opened and planned, and then each split is fetched and it is replied, in one go."""
        said = self.line(f"client {CLIENT} {text}")
        if said == f"{CLIENT} opened":
            said = self.line(f"client {CLIENT}")
        if said.startswith(f"{CLIENT} planned "):
            steps = self.lines(f"client {CLIENT}", int(said.split()[3]) + 1)
            # A refusal may come before the last step: what is said behind it is that nothing is asked.
            said = steps[-1] if steps[-1].startswith("{") else next((it for it in steps if it.startswith("{")), steps[-1])
        if not said.startswith("{"):
            raise failed(said.split()[1:])
        return json.loads(said)

    def end(self):
        """Lets the program end behind its last line, and returns what it says to people, which may be empty."""
        words, sentence = self._last()
        if self.process.returncode != 0:
            raise ProgramEnded(self.process.returncode, words, sentence)
        return sentence

    def kill(self):
        """Ends the program at once."""
        self.process.kill()
        self._last()

    def _answers(self, text, count):
        self.given += len(text)
        try:
            done = self.process.stdin.write(text)
            while done < len(text):
                done += self.process.stdin.write(text[done:])
        except BrokenPipeError:
            raise self._ended() from None
        piece = self._rest + os.read(self._out, 1 << 20)
        if piece.count(b"\n") < count:
            piece = self._more(piece, count)
        *said, self._rest = piece.split(b"\n", count)
        # The program's last line answers none.
        if said[-1].startswith(b"error "):
            self._rest = said[-1] + b"\n" + self._rest
            raise self._ended()
        return [it.decode() for it in said]

    def _more(self, piece, count):
        """What is said from this piece on, up to so many lines."""
        pieces, many = [piece], piece.count(b"\n")
        while many < count:
            piece = os.read(self._out, 1 << 20)
            if not piece:
                self._rest = b"".join(pieces)
                raise self._ended()
            pieces.append(piece)
            many += piece.count(b"\n")
        return b"".join(pieces)

    def _last(self):
        """Gives no more lines, and waits for the end: the words of the error line, and what was said to people."""
        self.process.stdin.close()
        if self.process.stdout.closed:
            return [], ""
        said, sentence = self._rest + self.process.stdout.read(), b""
        self.process.stdout.close()
        if self.process.stderr:
            sentence = self.process.stderr.read()
            self.process.stderr.close()
        self.process.wait()
        return error_words(said), sentence.decode(errors="replace").strip()

    def _ended(self):
        words, sentence = self._last()
        return ProgramEnded(self.process.returncode, words, sentence)


def request_text(request):
    """The request as one line of JSON, which the program takes."""
    text = JSON.encode(request)
    # A character is four bytes at most.
    if 4 * len(text) > LONGEST_LINE - 100 and len(f"client {CLIENT} {text}".encode()) > LONGEST_LINE:
        raise PoltyqenError("limit", "line", ["limit", "line", str(LONGEST_LINE)], "the request is too long")
    return text


def error_words(said):
    """The words of the last line, `error`, the status and these, if it is such a line."""
    *_, last = said.decode(errors="replace").rstrip("\n").split("\n")
    return last.split()[2:] if last.startswith("error ") else []


def failed(words, sentence=""):
    """What a step said that failed: the word, and the key of an object behind it."""
    place = words[1] if words[0] in ("missing", "corrupt", "foreign") and len(words) > 1 else None
    return StepFailed(words[0], place, words, sentence)


def found_program(program):
    """The program: the one that is named here, in the environment, or the one that was built in this repository."""
    top = os.path.dirname(os.path.dirname(os.path.dirname(os.path.abspath(__file__))))
    return program or os.environ.get("POLTYQEN_PROGRAM") or os.path.join(top, "crates/quick_node/out/quick_node")


# ---- texts and numbers

def quoted(text):
    """The text in quotes, as a query takes it: of a field of words the words one behind the other, of a raw field the whole text."""
    escaped = text.replace("\\", "\\\\").replace('"', '\\"')
    return f'"{escaped}"'


def seconds(moment):
    """Whole seconds from 1970 on, of a number of them or of a datetime with its zone."""
    if not hasattr(moment, "timestamp"):
        return moment
    if moment.tzinfo is None:
        raise ValueError(f"{moment} has no zone")
    return int(moment.timestamp() // 1)


def asked_keys(query, start, end, fields, **others):
    """The keys of a request that are given."""
    keys = {"query": query, "start_timestamp": seconds(start), "end_timestamp": seconds(end), "search_field": fields, **others}
    return {key: value for key, value in keys.items() if value is not None}


def told_numbers(line):
    """A line of words and numbers by turns: `docs 3 rejected 1`."""
    words = line.split()
    return {word: int(number) for word, number in zip(words[::2], words[1::2])}


def split_of(line):
    """A line of the report `splits`."""
    words = line.split()
    number, state, docs, rejected, merges, times = int(words[0]), words[1], words[3], words[5], words[7], words[9]
    bounds = None if times == "none" else tuple(int(it) for it in times.split(".."))
    spans = tuple(span_of(it) for it in words[11:] if it != "none")
    return Split(number, state, int(docs), int(rejected), int(merges), bounds, spans)


def span_of(text):
    partition, places, admitted, applied = text.split(":")
    start, end = places.split("-")
    return Span(partition, int(start), int(end), int(admitted), int(applied))


# ---- an index

class Index:
    """An index: the folder `store`, where it lies, and the folder `logs`, a file for each partition and a JSON record on each
    line. `program` is the built program; where it is not given it is `POLTYQEN_PROGRAM` of the environment, or the one that was
    built in this repository. Nothing is read or started before the first call. Several threads may share it; one call is
    answered at a time."""

    def __init__(self, store, logs, program=None):
        self.store, self.logs, self.program = os.fspath(store), os.fspath(logs), os.fspath(found_program(program))
        self._drive, self._moment, self._turn = None, 0, threading.RLock()

    def __enter__(self):
        return self

    def __exit__(self, *_):
        self.close()

    def close(self):
        """Ends the process, if one is open. Then others may write; the next call that needs it starts a new one."""
        with self._turn:
            drive, self._drive = self._drive, None
            if drive:
                drive.end()

    def create(self, config):
        """Makes the index of a configuration in TOML (docs/FORMATS.md), a text or bytes. The folder has to stand."""
        with self._turn:
            self.close()
            self._report("create", config.encode() if isinstance(config, str) else config)

    def ingest(self, partitions=None, upkeep=True):
        """Takes in what the logs have behind the checkpoints: all of it, or that of the partitions that are named, one or a list of
        up to 64. Behind it the merges, deletes and old files that are due are done (`upkeep`). A file that can't be read keeps nobody
        from the others: they are taken in, and then it is raised as a `StepFailed` of kind `sourcefault`."""
        # The schedule's lines in this function and in `upkeep` do what the program's command `run` will do by itself; once it is
        # there it replaces them.
        named = None if partitions is None else partitions_in(self.logs, partitions)
        with self._turn:
            done = self._work(lambda drive: self._indexed(drive, named))
            if upkeep:
                self.upkeep()
            return done

    def upkeep(self):
        """Does the merges that the configuration's policy asks for, applies the deletes, and deletes the files that no search
        needs any more, as far as their graces have passed."""
        with self._turn:
            return self._work(self._kept)

    def search(self, query, *, max_hits=20, offset=0, sort=None, start=None, end=None, fields=None, aggs=None):
        """What a query finds: a `Found`.

        max_hits, offset  which page of the hits is given; together at most 10,000
        sort              a fast field, the least value first, or `-` and a field, the greatest first; else by their places
        start, end        times: from the start on, before the end, in seconds from 1970 on or as a datetime with its zone
        fields            which fields a word without a field asks, in place of the configuration's
        aggs              what is counted over all that match, as docs/FORMATS.md has it: {"levels": {"terms": {"field": "level"}}}
        """
        keys = asked_keys(query, start, end, fields, max_hits=max_hits, start_offset=offset, sort_by=sort, aggs=aggs)
        said = self.request({"search": keys})
        return Found(said["num_hits"], said["hits"], said["aggregations"], said["revision"])

    def aggregate(self, aggs, query="*", *, start=None, end=None, fields=None):
        """What is counted over all that a query matches: the answers under their names."""
        return self.search(query, max_hits=0, start=start, end=end, fields=fields, aggs=aggs).aggregations

    def delete(self, query, *, start=None, end=None, fields=None):
        """Asks that what a query matches of the records that were taken in so far be removed: a `Deleted`. It is found until
        `upkeep`, or the next `ingest`, has applied it. A record that comes later stays, even one that says the same."""
        with self._turn:
            self._work(self._told_time)
            said = self.request({"delete": asked_keys(query, start, end, fields)})
            return Deleted(said["opstamp"], said["revision"])

    def request(self, request):
        """The reply to a request as it stands in docs/FORMATS.md, both as what Python makes of JSON."""
        text = request_text(request)
        with self._turn:
            said = self._work(lambda drive: drive.ask(text))
            if "error" not in said:
                return said
            query = next(iter(request.values()), {}).get("query", "")
            raise RequestRefused(said["error"], query, self._ended() if said["error"]["kind"] == "StoreFault" else "")

    def describe(self):
        """The index as a whole: a `Description`. It disturbs no one who writes."""
        lines = self._report("describe")
        numbers, marks = lines[:4], (it.split() for it in lines[4:])
        told = {word: number for line in numbers for word, number in told_numbers(line).items()}
        return Description(**told, checkpoints={name: int(number) for _, name, number in marks})

    def splits(self):
        """A `Split` for each split, by number. It disturbs no one who writes."""
        return [split_of(it) for it in self._report("splits")]

    def _report(self, command, given=b""):
        done = subprocess.run([self.program, self.store, self.logs, command], input=given, capture_output=True, check=False)
        if done.returncode != 0:
            raise ProgramEnded(done.returncode, error_words(done.stdout), done.stderr.decode(errors="replace").strip())
        return done.stdout.decode().splitlines()

    def _work(self, do):
        """Gives lines to the open process, or to a new one. Where they are cut off it is ended, since then nobody knows which
        answer belongs to which line."""
        if self._drive and self._drive.given > LONG_INPUT:
            self.close()
        if not self._drive:
            self._drive, self._moment = Drive(self.program, self.store, self.logs), 0
        try:
            return do(self._drive)
        except StepFailed as fault:
            fault.sentence = self._ended()
            raise
        except BaseException:
            drive, self._drive = self._drive, None
            drive.kill()
            raise

    def _ended(self):
        """Ends the process, since it says what failed on which file when it ends."""
        drive, self._drive = self._drive, None
        try:
            return drive.end()
        except ProgramEnded as ended:
            return ended.sentence

    def _told_time(self, drive):
        """Tells the program the system's time, which it takes from its lines alone, and which never goes back there."""
        self._moment = max(self._moment, int(time.time()))
        drive.line(f"at {self._moment}")

    def _indexed(self, drive, partitions):
        """Steps an indexer until it has caught up."""
        self._told_time(drive)
        indexer = OF_ALL
        if partitions is not None:
            indexer = OF_SOME
            drive.line(f"assign {indexer} {' '.join(partitions)}")
        done, faults, words = collections.Counter(), 0, ["checkpoint"]
        while words[0] != "caughtup":
            words = drive.line(f"indexer {indexer}").split()[2:]
            faults = faults + 1 if words[0] == "sourcefault" else 0
            if words[0] not in (*GOES_ON, "caughtup", "sourcefault") or faults == MOST_FAULTS:
                raise failed(words)
            done[words[0]] += int(words[1]) if words[0] == "read" else 1
        if done["sourcefault"]:
            raise failed(["sourcefault"])
        return Ingested(done["read"], done["published"])

    def _kept(self, drive):
        """Steps the merger, the delete worker and the collector until each has nothing to do."""
        self._told_time(drive)
        merged, deleted, collected = (stepped(drive, it) for it in ("merger", "deleter", "collector"))
        return Upkeep(merged["replaced"], deleted["replaced"], collected["doomed"] + collected["swept"])


def partitions_in(logs, names):
    """The names, each of a file among the logs; one name is a list of one."""
    names = [names] if isinstance(names, str) else list(names)
    if not 1 <= len(names) <= 64 or len(set(names)) != len(names):
        raise ValueError("1 to 64 different partitions can be named")
    for name in names:
        if not re.fullmatch(r"[A-Za-z0-9_.-]{1,64}", name):
            raise ValueError(f"{name!r} is no partition's name")
        if not os.path.isfile(os.path.join(logs, name)):
            raise StepFailed("nopartition", name, ["nopartition", name], f"there is no file {os.path.join(logs, name)}")
    return names


def stepped(drive, actor):
    """Steps an actor until it has nothing to do: how often it said which word."""
    done, words = collections.Counter(), [""]
    while words[0] != "nothing":
        words = drive.line(actor).split()[1:]
        if words[0] not in (*GOES_ON, "nothing"):
            raise failed(words)
        done[words[0]] += 1
    return done
