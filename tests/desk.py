"""How a clerk's program is tried: its standard input handed over in pieces, each by one read, one that breaks off, and
its standard error on a terminal."""
import os
import re
import socket
import subprocess
import threading
import tty


def in_pieces(words, pieces, beside=None):
    """The status, standard output and standard error of a program that gets each piece by a read of its own. A pipe
    would join those that come before the program reads; a socket that keeps its messages apart does not. No piece is
    empty or longer than the program's buffer has room for. A second input, in pieces of its own, comes on descriptor
    4."""
    inputs = [pieces] if beside is None else [pieces, beside]
    pairs = [socket.socketpair(socket.AF_UNIX, socket.SOCK_SEQPACKET) for _ in inputs]
    theirs = [pair[1].fileno() for pair in pairs]
    if beside is not None:
        words = ["bash", "-c", 'exec "$@" 4<&"$0"', str(theirs[1]), *words]
    process = subprocess.Popen(words, stdin=theirs[0], stdout=subprocess.PIPE, stderr=subprocess.PIPE,
        pass_fds=theirs[1:])
    for pair in pairs:
        pair[1].close()

    def feed(ours, pieces):
        with ours:
            try:
                for piece in pieces:
                    ours.send(piece)
            except (BrokenPipeError, ConnectionResetError):  # it has read enough
                pass

    threads = [threading.Thread(target=feed, args=(pair[0], pieces)) for pair, pieces in zip(pairs, inputs)]
    for thread in threads:
        thread.start()
    out, err = process.communicate()
    for thread in threads:
        thread.join()
    return process.returncode, out, err


def broken_off(text):
    """A file that has the text, and then an error where its end would be: the other side of a terminal that is gone."""
    ours, theirs = os.openpty()
    tty.setraw(theirs)
    os.write(theirs, text)
    os.close(theirs)
    return open(ours, "rb")


def in_words(wrote, fault):
    """Whether a command's standard error says in one sentence what its refused line says, and nothing else. The number
    stands after the line, and before a channel or a column: the third field of one file, the fourth of several."""
    numbers = wrote.split()[2:4]
    return any(re.fullmatch(rf"[a-z]+: ([^\n]+: )?refusal {number}: [^\n]+\n", fault) for number in numbers)


def cut(text, r):
    """The text in pieces of one byte to 60,000."""
    at = 0
    while at < len(text):
        end = at + r.choice([1, 1, 2, 3, 7, 30, 31, 32, 1_000, 60_000])
        yield text[at:end]
        at = end


def signs(words, text):
    """The numbers of lines that a program shows where its standard error is a terminal; None where it shows anything
    else."""
    ours, theirs = os.openpty()
    try:
        process = subprocess.Popen(words, stdin=subprocess.PIPE, stdout=subprocess.DEVNULL, stderr=theirs)
        os.close(theirs)
        process.communicate(text)
        shown = b""
        try:
            while more := os.read(ours, 4096):
                shown += more
        except OSError:  # the other end is closed
            pass
    finally:
        os.close(ours)
    # the items in words, which a terminal is told first
    shown = re.sub(rb"^\w+: (?:standard|step) [^\n]*\n", b"", shown)
    return [int(n) for n in re.findall(rb"\d+", shown)] if re.fullmatch(rb"(?:\d+ lines\r)*", shown) else None


def shows_progress(words, text):
    """Whether each million lines of the text made one sign, by the end of the 64 KiB that were being read."""
    shown, lines = signs(words, text), text.count(b"\n")
    return shown is not None and len(shown) == lines // 1_000_000 and all(0 <= n - 1_000_000 * k <= 65_536
        for k, n in enumerate(shown, 1))
