"""When a program comes to a place in its store: the orders after which its next order is there.

The program kdf9 tells their numbers if the place begins a word. If not, the run is cut after each of the first orders, and the report of each cut
says where the next order is.
"""
import os
from concurrent.futures import ThreadPoolExecutor
from typing import NamedTuple

from kdf9.deck import WORD
from kdf9.job import join_lines
from kdf9.machine import sound_facts
from kdf9.timeline import calls_of_orders

# How many orders are searched for a place that doesn't begin a word, and for how many of them the run is cut before it is looked at what was found.
MOST_SEARCHED = 4000
AT_ONCE = 50


class Stop(NamedTuple):
    """The number of an order of a program, and the call that it was obeyed with; 0 and 0 for the start."""

    order: int
    call: int


class Search(NamedTuple):
    """The first stops at a place, at most as many as were asked for, and whether there are orders that weren't searched."""

    stops: list
    is_cut: bool = False


def stops_at(run, number, place, most):
    """At most this many of the stops at a place of the program of this slot, the first of them. If it begins there, its start is one."""
    found = watched(run, number, place // WORD, most) if place % WORD == 0 else searched(run, number, place, most)
    return found._replace(stops=[Stop(0, 0), *found.stops][:most]) if place == 0 else found


def watched(run, number, word, most):
    """The first stops at the beginning of a word."""
    orders = sound_facts(join_lines(run.lines), "watch", str(number), str(word))["stops"][:most]
    return Search(list(map(Stop, orders, calls_of_orders(run.facts, number, orders))))


def searched(run, number, place, most):
    """The first stops at a place that may be any, among the first orders."""
    orders, found = range(1, MOST_SEARCHED + 1), []
    stops = list(map(Stop, orders, calls_of_orders(run.facts, number, orders)))
    with ThreadPoolExecutor(os.cpu_count()) as pool:
        for first in range(0, len(stops), AT_ONCE):
            part = stops[first:first + AT_ONCE]
            places = pool.map(lambda stop: run.after(number, stop.call, shown=False).place, part)
            found += [stop for stop, there in zip(part, places) if there == place]
            if len(found) >= most:
                return Search(found[:most])
    return Search(found, run.facts.program(number).orders > MOST_SEARCHED)
