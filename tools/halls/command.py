"""What the commands tools/hall and tools/plan share."""
import argparse
import os

from .answer import read_answer, refuse
from .exact import with_exact
from .picture import plan
from .program import answered, emit, write_files
from .ranges import with_ranges
from .rows import with_rows
from .say import as_json, words
from .text import Wrong


class Parser(argparse.ArgumentParser):
    """Bad usage is an error like any other."""

    def __init__(self, **more):
        super().__init__(allow_abbrev=False, formatter_class=argparse.RawDescriptionHelpFormatter, **more)

    def error(self, message):
        raise Wrong(f"{self.format_usage().strip()}\n{message}.")


class Version(argparse.Action):
    """The version of the library, from the file that stands above the tools, in the tree and where they are installed."""

    def __call__(self, parser, *_):
        with open(os.path.join(os.path.dirname(__file__), "..", "..", "VERSION"), encoding="utf-8") as file:
            print(f"{parser.prog} {file.read().strip()}, for job records of version 1 to 3 and answer records of version 1")
        parser.exit()


def with_version(parser):
    parser.add_argument("--version", action=Version, nargs=0, help="show the version and exit")
    return parser


def with_files(parser):
    parser.add_argument("--answer", metavar="FILE", help="write the answer record")
    parser.add_argument("--plan", metavar="FILE", help="draw the plan as SVG, a page of A4")
    parser.add_argument("--json", metavar="FILE", help="write the answer as JSON")
    parser.add_argument("--exact", action="store_true", help="say too what the least cost of all choices is, of at most 16 wagons that may move; walks them, by the archive and gcc")
    return with_rows_option(parser)


def with_rows_option(parser):
    parser.add_argument("--rows", action="store_true", help="say too how many rows the sweeps left standing; makes the run again, by the archive and gcc")
    return parser


def lines(texts):
    return "".join(text + "\n" for text in texts).encode("utf-8", "backslashreplace")


FORMS = {
    "words": lambda hall, answer: lines(words(hall, answer)),
    "json": lambda hall, answer: as_json(hall, answer).encode("utf-8", "backslashreplace"),
    "plan": lambda hall, answer: lines(plan(hall, answer)),
}


def solve(job, hall_of_job, given):
    """Answers a job, writes the files that are asked for, and says the answer; that is said too where a file can't be written."""
    record = answered(job)
    refuse(record)
    hall = hall_of_job(job)
    answer = read_answer(record, hall)
    answer = with_ranges(job, hall, answer)
    if given.rows:
        answer = with_rows(job, hall, answer)
    if given.exact:
        answer = with_exact(hall, answer)
    files = [(given.answer, record), (given.plan, FORMS["plan"](hall, answer)), (given.json, FORMS["json"](hall, answer))]
    try:
        write_files([(path, data) for path, data in files if path])
    finally:
        emit(FORMS["words"](hall, answer))


def ended(act, status_of):
    """Runs a command: its exit status is 0, or what `status_of` gives for the error, whose sentence goes to standard error."""
    try:
        act()
        return 0
    except Wrong as wrong:
        return say(wrong, status_of(wrong))
    except OSError as error:
        name = error.filename if isinstance(error.filename, str) else "Standard input"
        return say(f"{name} can't be read: {error.strerror}.", status_of(error))
    except KeyboardInterrupt:
        return say("Interrupted.", status_of(None))


def say(sentence, status):
    try:
        os.write(2, f"{sentence}\n".encode("utf-8", "backslashreplace"))
    except OSError:
        pass  # the status still tells
    return status
