"""The rows of a sweep: kept in a file as they come, so that a sweep goes on where it stopped, and the table at the end."""
from __future__ import annotations

import csv
import io
import json
import os
from collections.abc import Callable, Sequence
from pathlib import Path

Rows = dict[int, list[str]]


class Kept:
    """The file of the rows that have come. Its first line says of which sweep; a last line that is not whole does not count.

    Nor does a row that does not last: its run is to be done again. `ended` has of each run the measures whose thread ended behind a
    release, and `told` what else a reader of its figures must know.
    """

    def __init__(self, path: Path, identity: str, lasts: Callable[[list[str]], bool]) -> None:
        self._path, self._lasts = path, lasts
        self.ended: dict[int, Sequence[str]] = {}
        self.told: dict[int, Sequence[str]] = {}
        self.rows: Rows = self._read(identity)
        fresh = not self.rows
        self._file = path.open("w" if fresh else "r+")
        if fresh:
            self._file.write(json.dumps({"sweep": identity}) + "\n")
        else:
            self._file.truncate(self._size)
            self._file.seek(0, os.SEEK_END)
        self._file.flush()

    def _read(self, identity: str) -> Rows:
        rows: Rows = {}
        self._size = 0
        if not self._path.exists():
            return rows
        for number, line in enumerate(self._path.read_bytes().splitlines(keepends=True)):
            try:
                said = json.loads(line)
            except ValueError:
                break
            if not line.endswith(b"\n") or (number == 0 and said != {"sweep": identity}):
                break
            if number > 0 and self._lasts(said[1]):
                rows[said[0]] = self._beside(*said)
            self._size += len(line)
        return rows

    def add(self, line: str) -> None:
        """Keeps a row as it came."""
        said = json.loads(line)
        self.rows[said[0]] = self._beside(*said)
        self._file.write(line if line.endswith("\n") else line + "\n")
        self._file.flush()

    def _beside(self, number: int, row: list[str], ended: Sequence[str] = (), told: Sequence[str] = ()) -> list[str]:
        """Keeps what came beside a row, and gives the row."""
        self.ended[number], self.told[number] = ended, told
        return row

    def close(self) -> None:
        self._file.close()

    def __enter__(self) -> "Kept":
        return self

    def __exit__(self, *_: object) -> None:
        self.close()


def table(columns: list[str], rows: Rows) -> str:
    """The table in the order of the grid, whatever the order in which the runs ended."""
    out = io.StringIO()
    writer = csv.writer(out, lineterminator="\n")
    writer.writerow(columns)
    writer.writerows(rows[number] for number in sorted(rows))
    return out.getvalue()


def read_table(path: Path) -> list[dict[str, str]]:
    with path.open(newline="") as file:
        return list(csv.DictReader(file))
