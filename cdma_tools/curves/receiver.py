"""Runs of programs: the one that makes samples of scripts, and receivers (docs/FORMATS.md)."""

import hashlib
import os
import shlex

import numpy
from numpy.typing import NDArray

from cdma_tools.errors import Refused
from cdma_tools.receiver_run import as_pipe, ended_text, run_receiver
from cdma_tools.sample_header import HEADER, header, read_header
from cdma_tools.scripts import Traffic

VERSION = 1
# More than any sample file or its lines have.
MOST_BYTES = 1 << 28
# The commands that decode a traffic channel, and the arguments that name it.
COMMANDS = {"frame": ("follow", "list"), "frame2": ("rate2",)}
NO_SYNC = 1


def digest(program: str) -> str:
    """Returns the checksum of a program's file; raises Refused if it can't be read or run."""
    if not os.path.isfile(program) or not os.access(program, os.X_OK):
        raise Refused(f"no program at {program}: build it first, or name another one")
    try:
        with open(program, "rb") as file:
            return hashlib.file_digest(file, "sha256").hexdigest()
    except OSError as why:
        raise Refused(f"{program}: {why.strerror}") from None


def run(program: str, words: list[str], data: bytes, minutes: float) -> tuple[int, bytes, str]:
    """A program's run over bytes: its status, what it wrote, and its line on standard error."""
    with as_pipe(data) as source:
        ran = run_receiver([program, *words], source, 60 * minutes, MOST_BYTES)
    if ran.fault:
        raise Refused(f"{program} {' '.join(words)}: {ran.fault}")
    return ran.status, ran.wrote, ran.told.decode(errors="replace").strip()[:200]


def made(maker: str, script: str, name: str, minutes: float) -> tuple[int, NDArray[numpy.int16]]:
    """The flags and the parts, i and q in turn, of the samples of a script's cell."""
    status, wrote, said = run(maker, ["make"], script.encode("ascii", errors="replace"), minutes)
    if status:
        raise Refused(f"{name}: {maker} make ended with {status}: {said}")
    try:
        told = read_header(wrote, name)
    except Refused:
        raise Refused(f"{name}: {maker} make wrote no sample file") from None
    if told.version != VERSION or len(wrote) != told.file_bytes:
        raise Refused(f"{name}: {maker} make didn't write a complete sample file of version {VERSION}")
    return told.flags, numpy.frombuffer(wrote, dtype=">i2", offset=HEADER.size).astype(numpy.int16)


def sample_file(flags: int, parts: NDArray[numpy.int16]) -> bytes:
    """The bytes of a sample file of version 1."""
    return header(VERSION, flags, len(parts) // 2) + parts.astype(">i2", copy=False).tobytes()


def words_of(given: str, traffic: Traffic) -> str:
    """Returns a receiver's arguments: those given, and those that name the channel if they aren't among them."""
    kind = traffic.frames[0].kind
    try:
        words = shlex.split(given)
    except ValueError as why:
        raise Refused(f"--words {given!r}: {why}") from None
    if not words or words[0] not in COMMANDS[kind]:
        raise Refused(f"--words {given!r}: a script with {kind} lines needs {' or '.join(COMMANDS[kind])}")
    for name, value in (("--esn", traffic.esn), ("--row", traffic.row), ("--offset", traffic.offset)):
        if not any(word == name or word.startswith(name + "=") for word in words):
            words += [name, str(value)]
    return shlex.join(words)


def heard(program: str, words: str, data: bytes, minutes: float) -> list[str]:
    """Returns the lines of a receiver, none if it decoded no sync message; raises Refused on other endings, or without
    lines."""
    status, wrote, said = run(program, shlex.split(words), data, minutes)
    if status not in (0, NO_SYNC):
        how = f"ended with {status}" if status >= 0 else f"was {ended_text(status)}"
        raise Refused(f"{program} {words} {how}" + (f": {said}" if said else ""))
    if status == 0 and not wrote:
        raise Refused(f"{program} {words} ended with 0, but wrote no lines")
    try:
        return wrote.decode("ascii").splitlines()
    except UnicodeDecodeError:
        raise Refused(f"{program} {words} wrote text that isn't ASCII") from None
