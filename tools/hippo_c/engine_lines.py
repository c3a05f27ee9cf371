"""The lines in which the engine of explore says what it found, read into findings."""
from __future__ import annotations

from collections.abc import Iterable

from .findings import Behaviour, Cut, Failure, Found, LostStore, Outputs, Read, Refused, Report, shortened
from .pool_starts import Start, start_of
from .program import Site
from .trouble import Trouble


class Reader:
    """Reads the lines of the engine into what they mean."""

    def __init__(self, sites: list[Site]) -> None:
        self.sites, self.found = sites, Found()

    def take(self, line: str) -> None:
        """Takes in a line."""
        word, _, rest = line.partition(" ")
        try:
            fields = dict(part.split("=", 1) for part in rest.split(" ") if part)
            getattr(self, f"take_{word}", self.take_unknown)(fields)
        except (ValueError, KeyError, IndexError):
            raise Trouble(f"a defect of explore: the engine said {line[:100]!r}") from None

    def take_unknown(self, _: dict[str, str]) -> None:
        """A line of no known kind."""
        raise ValueError

    def take_progress(self, _: dict[str, str]) -> None:
        """Progress is shown when it comes."""

    def take_report(self, fields: dict[str, str]) -> None:
        """A report; the shortest input counts."""
        path = (self.sites[int(fields["store"])], *self.path(fields["path"]))
        flush = self.sites[int(fields["flush"])] if "flush" in fields else None
        report = Report(
            (fields["missing"], flush, shortened(path)),
            numbers(fields["input"]),
            cuts(fields.get("cuts", "")),
            int(fields.get("told", 0)),
            start_in(fields),
            int(fields["limit"]) if "limit" in fields else None,
        )
        known = self.found.reports.get(report.key)
        if known is None or rank(report) < rank(known):
            self.found.reports[report.key] = report

    def take_failure(self, fields: dict[str, str]) -> None:
        """A failure; the shortest input of a cause counts."""
        ended = ended_of(fields)
        path = () if ended == "cut" else (self.sites[int(fields["site"])], *self.path(fields["path"]))
        at = self.at(fields["at"])
        failure = Failure(
            fields["cause"],
            int(fields["level"]),
            ended,
            path,
            at,
            self.lost(fields["lost"]),
            numbers(fields["input"]),
            cuts(fields["cuts"]),
            int(fields["told"]),
            int(fields["limit"]),
            start_in(fields),
        )
        known = self.found.failures.get(failure.cause)
        if known is None or len(failure.numbers) < len(known.numbers):
            self.found.failures[failure.cause] = failure

    def take_outputs(self, fields: dict[str, str]) -> None:
        """Outputs after a crash; the shortest input of a place counts."""
        at = self.at(fields["at"])
        first, second, third = numbers(fields["skips"])
        outputs = Outputs(
            fields["acknowledged"] == "1",
            int(fields["operation"]),
            at,
            numbers(fields["input"]),
            numbers(fields["without"]),
            numbers(fields["resumed"]),
            (first, second, third),
            cuts(fields["cuts"]),
            int(fields["told"]),
            start_in(fields),
            int(fields["print"]),
        )
        known = self.found.outputs.get((at[:1], outputs.is_acknowledged))
        if known is None or len(outputs.numbers) < len(known.numbers):
            self.found.outputs[(at[:1], outputs.is_acknowledged)] = outputs

    def take_trapped(self, fields: dict[str, str]) -> None:
        """An input whose run traps, or takes more turns than the search allows; those with other bytes of a pool are only counted by the engine."""
        if not start_in(fields):
            (self.found.long if fields["ending"] == "cut" else self.found.trapped).append(numbers(fields["input"]))

    def take_refused(self, fields: dict[str, str]) -> None:
        """An input that leaves a state which the next run refuses though nothing is lost."""
        self.found.refused.append(
            Refused(
                ended_of(fields),
                numbers(fields["input"]),
                cuts(fields["cuts"]),
                int(fields["told"]),
                int(fields["limit"]),
                start_in(fields),
            )
        )

    def take_behaviour(self, fields: dict[str, str]) -> None:
        """A behaviour of a crash point."""
        ended = ended_of(fields)
        path = (self.sites[int(fields["site"])], *self.path(fields["path"])) if ended.startswith("trap") else ()
        at = self.at(fields["at"])
        reads = [
            Read(int(address), int(size), int(value, 16))
            for address, size, value in (part.split(":") for part in fields["reads"].split(",") if part)
        ]
        self.found.behaviours.append(
            Behaviour(
                ended,
                path,
                fields["fails"] == "1",
                int(fields["images"]),
                reads,
                at,
                numbers(fields["input"]),
                cuts(fields["cuts"]),
                int(fields["told"]),
                int(fields["limit"]),
                start_in(fields),
            )
        )

    def take_kept(self, fields: dict[str, str]) -> None:
        """An input that ran something new. One that needs other bytes of a pool has no line in a corpus."""
        if not start_in(fields):
            self.found.kept.append(numbers(fields["input"]))

    def take_missed(self, fields: dict[str, str]) -> None:
        """The blocks that did not run; of several processes, those that ran in none."""
        missed = set(numbers(fields["blocks"]))
        self.found.missed = missed if self.found.missed is None else self.found.missed & missed

    def take_summary(self, fields: dict[str, str]) -> None:
        """The counts of a process."""
        for name, value in fields.items():
            self.found.summary[name] = self.found.summary.get(name, 0) + int(value)
        self.found.given_blocks = max(self.found.given_blocks, int(fields["given_blocks"]))

    def path(self, text: str) -> Iterable[Site]:
        """The sites of a list of numbers."""
        return (self.sites[number] for number in numbers(text))

    def at(self, text: str) -> tuple[Site, ...]:
        """The site of an entry and its calls, as SITE/CALL..; nothing before the first entry."""
        return tuple(self.sites[int(site)] for site in text.split("/")) if text else ()

    def lost(self, text: str) -> list[LostStore]:
        """Stores that an image lacks, as ADDRESS:SIZE:SITE/CALL..."""
        found = []
        for part in text.split(",") if text else []:
            address, size, path = part.split(":")
            found.append(LostStore(int(address), int(size), tuple(self.sites[int(site)] for site in path.split("/"))))
        return found


def start_in(fields: dict[str, str]) -> Start:
    """The changed bytes of pools before a run."""
    return start_of(fields.get("start", ""))


def ended_of(fields: dict[str, str]) -> str:
    """How a run ended, in the words of hippo."""
    ending = fields["ending"]
    return f'stop {fields["status"]}' if ending == "stop" else ending if ending == "cut" else f"trap {ending}"


def rank(report: Report) -> tuple[int, int, list[int]]:
    """Reports without a crash and with the given bytes of pools come first, then those with short inputs."""
    return len(report.cuts) + bool(report.start), len(report.numbers), report.numbers


def numbers(text: str) -> list[int]:
    """The numbers between commas."""
    return [int(word) for word in text.split(",")] if text else []


def cuts(text: str) -> list[Cut]:
    """Crashes, as EVENTS,LINE/UPTO,..;EVENTS,.."""
    found = []
    for part in text.split(";") if text else []:
        events, *picks = part.split(",")
        found.append(
            (int(events), tuple(sorted((int(line), int(upto)) for line, upto in (pick.split("/") for pick in picks))))
        )
    return found
