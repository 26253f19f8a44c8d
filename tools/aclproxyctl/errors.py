"""Errors of those who use the tool: a sentence on standard error, and a status of its own."""

# `run` ends with the statuses of `serve`, 0 to 10, so those of the tool begin above.
DONE = 0
NO = 1  # the answer is no: `check` refuses, `verify` finds a line that is not the machine's, `explain` says denied
UNDECIDED = 2  # `explain` without --ask, where a helper decides
USAGE = 64  # the words of the command
REFUSED = 65  # a configuration that is refused, of commands other than `check`
MISSING = 66  # there is no such file or folder
NO_RUN = 67  # a folder without a run in it
CUT = 68  # a journal's last line has no end
NEEDS = 69  # a program that is wanted is not installed
INTERNAL = 70  # a program answered something that it is not to answer
SYSTEM = 71  # the system refused something
VERSION = 72  # no journal, or one of a version that is not known
READ = 74  # a file could not be read
DENIED = 77  # no permission
NOT_UTF8 = 78  # a configuration that is not UTF-8
INTERRUPTED = 130


class UserError(Exception):
    """What stops a command: a sentence and the status to end with."""

    def __init__(self, status: int, text: str) -> None:
        super().__init__(text)
        self.status = status
        self.text = text


def of_system(fault: OSError, what: str) -> UserError:
    """The error of the tool for one of the system's."""
    reason = fault.strerror or str(fault)
    if isinstance(fault, (FileNotFoundError, NotADirectoryError)):
        return UserError(MISSING, f"{what}: there is no such file")
    if isinstance(fault, PermissionError):
        return UserError(DENIED, f"{what}: no permission; ask its owner, or run this as another user")
    if isinstance(fault, IsADirectoryError):
        return UserError(READ, f"{what}: it is a folder, and a file is wanted")
    return UserError(SYSTEM, f"{what}: {reason}")
