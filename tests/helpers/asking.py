"""Runs of `chtab ask` whose requests are sent part by part, and whose answers are read as they come; and requests that stand with their answers."""
import contextlib
import os
import re
import select
import socket
import subprocess
import threading
from itertools import accumulate
from pathlib import Path

from helpers.running import PROGRAM, SECONDS, Answer


# The most bytes that the program reads at once. Ends that are apart lose what one write sends beyond what one read takes.
READ = 65_536


def apart():
    """A reader and a writer, as of a pipe, where each read gives what one write has sent, and no more."""
    reader, writer = socket.socketpair(socket.AF_UNIX, socket.SOCK_SEQPACKET)
    return reader.detach(), writer.detach()


class Conversation:
    """A run of the program on these words, to which requests are sent while its answers are read, through a pipe or other ends.

    A program that answers nothing for as long as a run may take has failed; what was heard of it until then is what there is.
    """

    def __init__(self, words, folder, ends=os.pipe):
        reader, self.writer = ends()
        self.process = subprocess.Popen([PROGRAM, *words], cwd=folder, env={}, stdin=reader, bufsize=0,
                                        stdout=subprocess.PIPE, stderr=subprocess.PIPE)
        os.close(reader)

    def __enter__(self):
        return self

    def __exit__(self, *fault):
        self.stop()
        with self.process:
            self.process.kill()

    def say(self, part):
        """Sends these bytes, at most as many in one write as one read takes. A program that has ended takes none."""
        with contextlib.suppress(ConnectionError):
            for place in range(0, len(part), READ):
                os.write(self.writer, part[place:place + READ])

    def stop(self):
        """Ends the requests."""
        if self.writer is not None:
            os.close(self.writer)
            self.writer = None

    def hear(self, count):
        """The next so many bytes of the answers, or fewer where no more come."""
        heard, answers = b"", self.process.stdout
        while len(heard) < count and select.select([answers], [], [], SECONDS)[0]:
            part = answers.read(count - len(heard))
            if not part:
                break
            heard += part
        return heard

    def hear_line(self):
        heard = self.hear(1)
        while heard and not heard.endswith(b"\n") and (more := self.hear(1)):
            heard += more
        return heard

    def leave(self):
        """Closes the answers."""
        self.process.stdout.close()

    def most_held(self):
        """The most bytes that the program has held until now. Its usage, which the system tells when it has ended, would not do: it is no less
        than that of the program that started it."""
        status = Path(f"/proc/{self.process.pid}/status").read_text()
        return int(re.search(r"^VmHWM:\s+(\d+) kB$", status, re.MULTILINE)[1]) * 1024

    def rest(self):
        """The answer of the run once it has ended, with what was not heard yet."""
        try:
            out, err = self.process.communicate(timeout=SECONDS)
            return Answer(self.process.returncode, out, err)
        except subprocess.TimeoutExpired:
            self.process.kill()
            return Answer("stopped", b"", b"")

    def end(self):
        """Ends the requests. The answer of the run, with what was not heard yet."""
        self.stop()
        return self.rest()


def run_by_parts(words, folder, parts):
    """The answer of a run of which each read of requests gives one of these parts, none of them empty."""
    with Conversation(words, folder, apart) as talk:
        def say_all():
            for part in parts:
                talk.say(part)
            talk.stop()

        saying = threading.Thread(target=say_all)
        saying.start()
        answer = talk.rest()
        saying.join()
        return answer


def run_before_leaving(words, folder, count, requests):
    """The answer of a run to a reader that takes so many bytes and goes away; it is gone from the beginning where it takes none."""
    reader, writer = os.pipe()
    if count == 0:
        os.close(reader)
    process = subprocess.Popen([PROGRAM, *words], cwd=folder, env={}, stdin=requests, stdout=writer, stderr=subprocess.PIPE)
    os.close(writer)
    heard = b""
    if count > 0:
        heard = os.read(reader, count)
        os.close(reader)
    try:
        _, err = process.communicate(timeout=SECONDS)
        return Answer(process.returncode, heard, err)
    except subprocess.TimeoutExpired:
        process.kill()
        return Answer("stopped", heard, b"")


# Requests that stand with their answers, as pairs of bytes.


def requests_of(asked):
    return b"".join(request for request, _ in asked)


def answers_of(asked):
    return b"".join(answer for _, answer in asked)


def answers_after(asked, size):
    """The answers to the requests that are whole in the first so many bytes."""
    ends = accumulate(len(request) for request, _ in asked)
    return b"".join(answer for end, (_, answer) in zip(ends, asked) if end <= size)
