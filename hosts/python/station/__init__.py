"""A garage's station, proved: the entries of its library (include/*.h) and its program, for a host in Python. docs/PYTHON.md explains it.

One thread at a time calls on one Station, Desk or Totals. No call waits but a Program's, and none prints.
"""

from . import desks, journals, messages
from .answers import Answer, Event, Number, Outcome, Refused
from .calls import Desk, Line, Station, Whereabouts
from .entries import version
from .messages import Held
from .plans import Grounds, Plan, Verdict, explain, judge
from .parts import parts_in_words, parts_of
from .program import Ended, Program
from .record import RAISED, START, Condition, Record, apart_drawing, apart_from_drawing
from .report import Totals
from .words import Instruction, belts, instruction, lift, rotate, shuttles, tilt

__all__ = [
    "Answer", "Condition", "Desk", "Ended", "Event", "Grounds", "Held", "Instruction", "Line", "Number", "Outcome", "Plan", "Program", "RAISED",
    "Record", "Refused", "START", "Station", "Totals", "Verdict", "Whereabouts", "apart_drawing", "apart_from_drawing", "belts", "desks",
    "explain", "instruction", "journals", "judge", "lift", "messages", "parts_in_words", "parts_of", "rotate", "shuttles", "tilt",
    "version",
]
