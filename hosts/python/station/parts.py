"""The parts of the garage as bits of a number: 0 to 39 the cells, 40 to 51 the shuttles' slots, 52 the lift (53 and 54 its height)."""

from typing import List, Tuple

SLOT_FIRST, LIFT = 40, 52
SLOTS = [f"{side} row {row} {orientation}" for orientation in ("lowered", "tilted") for side in ("left", "right") for row in (1, 2, 3)]


def parts_of(number: int) -> Tuple[int, ...]:
    """The parts that a number has bits for: 0 to 39 the cells, 40 to 51 the shuttles' slots, 52 the lift."""
    return tuple(at for at in range(64) if number >> at & 1)


def folded(area: int) -> int:
    """An area with the lift as one part, as what is set apart has it."""
    lift = bool(area >> LIFT)
    return area % (1 << LIFT) | lift << LIFT


def runs_of(cells: List[int]) -> List[str]:
    """Cells in words, neighbours as one run: `2 to 10`."""
    runs: List[List[int]] = []
    for cell in cells:
        if runs and runs[-1][-1] == cell - 1:
            runs[-1].append(cell)
        else:
            runs.append([cell])
    return [str(run[0]) if len(run) == 1 else f"{run[0]} to {run[-1]}" for run in runs]


def parts_in_words(number: int) -> str:
    """The parts in words: `cells 2 to 10, left row 3 lowered, the lift`."""
    parts = parts_of(folded(number))
    cells = [part for part in parts if part < SLOT_FIRST]
    words = [SLOTS[part - SLOT_FIRST] for part in parts if SLOT_FIRST <= part < LIFT] + ["the lift"] * (LIFT in parts)
    if cells:
        words.insert(0, ("cell " if len(cells) == 1 else "cells ") + " and ".join(runs_of(cells)))
    return ", ".join(words)
