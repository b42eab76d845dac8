"""Many files, counted in the process or through an executor, on one machine or many.

What a file comes to depends on nothing but the file and the items, so files may be counted anywhere in any order; only
entering into a campaign is in order. The results come back in the order of the files, and of several files at fault
the first is told, whatever finished first. What an executor does not bring back, such as the batch of a worker that was
killed, is counted in this process."""

from __future__ import annotations

import concurrent.futures
import os
import uuid
import warnings
from array import array
from typing import Any, Iterable, Iterator, List, Mapping, Optional, Sequence, Tuple, Union

from chimenickel import Campaign, Channel, Record, Refusal, Result, read_comma, write_sheet

Path = Union[str, bytes, "os.PathLike[str]", "os.PathLike[bytes]"]
# A record's file, or the roll's and the acceleration's.
Files = Union[Path, Tuple[Path, Path]]
Outcome = Union[Result, Exception]
# Items, the number of records before it, the names of its files, and a word that no other call has: an executor which
# keeps what a task came to, as Dask's does, would else answer by a file as it was.
Batch = Tuple[Mapping[str, int], int, List[Tuple[str, ...]], str]


class FileRefusal(Refusal):
    """A Refusal of a record's file: also the record's number, 1 for the first, and the file's path, or both paths where
    it is of both."""

    def __init__(self, refusal: Refusal, record: int, path: str) -> None:
        super().__init__(refusal.number, refusal.carried, refusal.channel)
        self.record = record
        self.path = path

    def __str__(self) -> str:
        return f"record {self.record}, {self.path}: {super().__str__()}"

    def __reduce__(self) -> Tuple[Any, ...]:
        return FileRefusal, (Refusal(self.number, self.carried, self.channel), self.record, self.path)


# Zeros are above no level, so that any does for a channel that is not given.
_ANY = 1


def _opened(items: Mapping[str, int]) -> Record:
    return Record(**{"acceleration_level": _ANY, **items})


def _read(path: str, step: int) -> Tuple[Optional[array[int]], Optional[Refusal], int]:
    """The samples of a file, or why there are none; and its lines."""
    with open(path, "rb") as file:
        text = file.read()
    try:
        return read_comma(text, step), None, text.count(b"\n")
    except Refusal as refusal:
        return None, refusal, text.count(b"\n")


def _first(refusals: Sequence[Optional[Refusal]], number: int) -> Optional[int]:
    """Which file's refusal by this number goes first: at the lower place, and the roll's of two at one."""
    found = [(refusal.carried, i) for i, refusal in enumerate(refusals) if refusal and refusal.number == number]
    return min(found)[1] if found else None


def _counted(items: Mapping[str, int], number: int, paths: Tuple[str, ...]) -> Result:
    """The result of one record, of one file or two; its refusals are judged over the whole of both, in the order of
    chimenickel count: 1, 10, 12, 2, 3, 4."""
    record = _opened(items)
    samples, refusals, lines = zip(*(_read(path, items["step"]) for path in paths))
    both = " and ".join(paths)

    def refused(at: int) -> FileRefusal:
        refusal = refusals[at]
        return FileRefusal(
            Refusal(refusal.number, refusal.carried, Channel(at + 1) if len(paths) == 2 else None), number, paths[at]
        )

    bad_line = _first(refusals, 10)
    if bad_line is not None:
        raise refused(bad_line)
    if len(set(lines)) > 1:
        raise FileRefusal(Refusal(12, 0), number, both)
    bad_sample = _first(refusals, 2)
    if bad_sample is not None:
        raise refused(bad_sample)
    try:
        record.feed(*samples)
        return record.end()
    except Refusal as refusal:
        raise FileRefusal(refusal, number, both) from None


def _batch(batch: Batch) -> List[Outcome]:
    """What the files of a batch come to, in order, up to the first at fault. This is what an executor runs."""
    items, number, records, _call = batch
    outcomes: List[Outcome] = []
    for paths in records:
        number += 1
        try:
            outcomes.append(_counted(items, number, paths))
        except (Refusal, OSError) as error:
            outcomes.append(error)
            break
    return outcomes


def _named(paths: Iterable[Files], items: Mapping[str, int]) -> List[Tuple[str, ...]]:
    """The names of each record's files, one, or two where an acceleration is watched too."""
    if isinstance(paths, (str, bytes)):  # whose letters would be gone through
        raise TypeError(f"paths are several, as in a list: {paths!r} given")
    wanted = 1 + ("acceleration_level" in items)
    records = []
    for number, files in enumerate(paths, 1):
        names = tuple(os.fsdecode(path) for path in (files if isinstance(files, (tuple, list)) else (files,)))
        if len(names) != wanted:
            said = "one file" if wanted == 1 else "two files, the roll's and the acceleration's"
            raise TypeError(f"record {number} has {said}: {names} given")
        records.append(names)
    return records


def _batches(records: List[Tuple[str, ...]], items: Mapping[str, int]) -> List[Batch]:
    """The files in batches, which cost an executor a message each: some thirty, and no more than 64 files in one."""
    size, call = max(1, min(64, len(records) // 32)), uuid.uuid4().hex
    return [(dict(items), start, records[start : start + size], call) for start in range(0, len(records), size)]


def _outcomes(batches: List[Batch], executor: Optional[concurrent.futures.Executor]) -> Iterator[Outcome]:
    """What the records come to, in order."""
    futures: List[Optional[concurrent.futures.Future[List[Outcome]]]] = []
    failed: Optional[Exception] = None
    for batch in batches:
        try:
            futures.append(executor.submit(_batch, batch) if executor else None)
        except Exception as error:  # an executor whose worker was killed takes no more
            futures.append(None)
            failed = error
    try:
        for batch, future in zip(batches, futures):
            try:
                outcomes = future.result() if future else None
            except Exception as error:
                failed, outcomes = error, None
            yield from _batch(batch) if outcomes is None else outcomes
    finally:
        for future in futures:
            if future:
                future.cancel()
        if failed:
            warnings.warn(f"some files were counted in this process: {failed!r}", RuntimeWarning, stacklevel=4)


def _results(
    records: List[Tuple[str, ...]], items: Mapping[str, int], executor: Optional[concurrent.futures.Executor]
) -> Iterator[Result]:
    """The results in order, up to the first file at fault, which is raised. An item outside its range is no file's."""
    _opened(items)
    for outcome in _outcomes(_batches(records, items), executor):
        if isinstance(outcome, Exception):
            raise outcome
        yield outcome


def count_files(
    paths: Iterable[Files], items: Mapping[str, int], executor: Optional[concurrent.futures.Executor] = None
) -> List[Result]:
    """The results of records, a comma file each, in the order of the files. The items are those of a Record by their
    names, in a dict; with an acceleration_level a record is two files, the roll's and the acceleration's, in a tuple.
    An executor of concurrent.futures, such as a ProcessPoolExecutor or what get_executor of a client of Dask gives,
    counts them where it likes. Of several files at fault the first raises FileRefusal, or OSError if it cannot be
    read."""
    return list(_results(_named(paths, items), items, executor))


def sheet_of_files(
    standard: int,
    paths: Iterable[Files],
    items: Mapping[str, int],
    executor: Optional[concurrent.futures.Executor] = None,
) -> bytes:
    """The job sheet of a campaign, one failure in so many ms, from its records' files, as chimenickel sheet writes it;
    files, items and executor are those of count_files. A record after the last that a campaign takes raises FileRefusal
    by 5 or 6."""
    campaign = Campaign(standard)
    records = _named(paths, items)
    exposures = []
    for number, result in enumerate(_results(records, items, executor), 1):
        try:
            campaign.enter_result(result)
        except Refusal as refusal:
            raise FileRefusal(refusal, number, " and ".join(records[number - 1])) from None
        exposures.append(-result.exposure if result.failed else result.exposure)
    return write_sheet(standard, exposures)
