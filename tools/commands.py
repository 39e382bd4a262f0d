"""What the commands have in common: their words, what they print and say, and how they end."""
import argparse
import os
import sys

INTERRUPTED = 130


class Failed(Exception):
    """The command ends with this status, and says this on standard error."""

    def __init__(self, text, status=1):
        super().__init__(text)
        self.status = status


class Words(argparse.ArgumentParser):
    """The words of a command; a fault in them is told in one line, with status 2."""

    def __init__(self, name, page):
        super().__init__(prog=name, description=page, formatter_class=argparse.RawDescriptionHelpFormatter)

    def error(self, message):
        raise Failed(message, 2)

    def print_help(self, file=None):
        put(self.format_help())


def put(text):
    """Writes all of the text to standard output, or fails."""
    left = text if isinstance(text, bytes) else text.encode()
    try:
        while left:
            left = left[os.write(1, left):]
    except OSError as fault:
        raise Failed(f"standard output: {fault.strerror}") from None


def say(text):
    """Writes the text to standard error, as far as that takes it."""
    try:
        os.write(2, text.encode())
    except OSError:
        pass


def is_open(stream):
    """Whether the stream of that number is open."""
    try:
        os.fstat(stream)
    except OSError:
        return False
    return True


def end(name, main):
    """Ends the command of that name with the status that `main` gives, or as it fails."""
    try:
        # Else the next file that is opened would take the place of a stream that is closed. This one fails as that would.
        for stream, way in enumerate((os.O_WRONLY, os.O_RDONLY, os.O_RDONLY)):
            if not is_open(stream):
                os.open(os.devnull, way)
        status = main()
    except Failed as failed:
        say(f"{name}: {failed}\n")
        status = failed.status
    except KeyboardInterrupt:
        status = INTERRUPTED
    sys.exit(status)
