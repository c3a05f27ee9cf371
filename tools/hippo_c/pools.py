"""The command pool: the bytes of a pool that a run leaves, or a power cut in it, as a file for `--pool NAME=SIZE,FILE`."""
import argparse

from .checking import printer_of
from .crash_answers import image_of
from .crashing import entries_of, single_point
from .diagnostics import amount
from .images import CacheLines, Point
from .program import REGION_BASE, Global
from .progress import Progress
from .request import Request
from .session import Session
from .traces import pieces
from .trouble import Trouble
from .writing import output_file

WORD = 8


def add_options(command: argparse.ArgumentParser) -> None:
    """The options of pool that other commands do not have."""
    command.add_argument("-o", dest="out", required=True, metavar="FILE", help="where to write the bytes")
    command.add_argument("--of", metavar="NAME", help="the pool, if --pool is given several times")
    command.add_argument(
        "--entries", metavar="N", help="the bytes that a power cut after this entry of the trace leaves"
    )
    command.add_argument(
        "--pick",
        dest="picks",
        nargs="*",
        default=[],
        metavar="LINE:UPTO",
        help="cache lines with more than their durable stores, as for crash",
    )


def pool(options: argparse.Namespace, request: Request, progress: Progress) -> int:
    """Writes the bytes of a pool."""
    if len(request.inputs) > 1:
        raise Trouble("pool takes one input")
    if options.picks and options.entries is None:
        raise Trouble("--pick needs one entry: --entries N")
    number, name = pool_of(options)
    with Session(request, progress) as session:
        path, ended = session.record(request.inputs[0], "program.trace")
        point = end_of(path) if options.entries is None else single_point(options, *entries_of(options.entries))
        progress.say("taking the image")
        content = content_of(session, image_of(session, path, point), number)
        if content is None:
            raise Trouble(
                f'the file {name} does not exist {"when the run ends" if options.entries is None else "then"}'
            )
        with output_file(options.out) as file:
            file.write(content)
        progress.wipe()
        when = (
            f"when the run ends ({ended.how})"
            if options.entries is None
            else f"after a power cut at entry {point.entry}"
        )
        printer_of(options).line(f'written: {options.out}, {amount(len(content), "byte")} of {name} {when}')
    return 0


def pool_of(options: argparse.Namespace) -> tuple[int, str]:
    """The number and the name of the pool."""
    names = [word.partition("=")[0] for word in options.pool or []]
    if not names:
        raise Trouble("the program has no pool", "give one by --pool NAME=SIZE")
    if options.of is None and len(names) > 1:
        raise Trouble(f'which pool: {", ".join(names)}?', "name it by --of NAME")
    name = options.of if options.of is not None else names[0]
    if name not in names:
        raise Trouble(f'--of {name}: no such pool; there is {", ".join(names)}')
    return names.index(name), name


def end_of(path: str) -> Point:
    """The point after the last entry of a trace, with all stores."""
    lines, number = CacheLines(), 0
    for number, entry in enumerate(pieces(path), 1):
        lines.take(number, entry)
    return Point(
        number,
        tuple(
            (line, len(lines.lines[line].stores))
            for line in sorted(lines.pending)
            if len(lines.lines[line].stores) > lines.lines[line].durable
        ),
    )


def content_of(session: Session, image: bytearray, number: int) -> bytes | None:
    """The bytes of a pool's file in an image of the region; nothing if the file does not exist."""
    found = {item.name: item for item in session.program.persistent}
    state, data = (found.get(f"hippo.hippo_{part}_{number}") for part in ("file", "pool"))
    if state is None or data is None:
        raise Trouble("the program does not use this pool")
    length, exists = (int.from_bytes(bytes_of(image, state)[at : at + WORD], "little") for at in (0, WORD))
    return bytes(bytes_of(image, data)[:length]) if exists else None


def bytes_of(image: bytearray, item: Global) -> bytearray:
    """The bytes of a global in an image."""
    at = item.address - REGION_BASE
    return image[at : at + item.size]
