#!/usr/bin/env python3
"""Writes the cases of history. The answers are those of the plain repository of plain.py, which docs/PROTOCOL.md describes. The
rows that come first are written by hand with what they are refused for, and each commit and tree that they say is one that git
printed; after them come commands by chance."""

import random
import sys
from pathlib import Path

sys.path.insert(0, str(Path(__file__).resolve().parents[1]))
sys.path.insert(0, str(Path(__file__).resolve().parent))
import any_bytes
import rounds
from by_chance import by_chance, logs_by_chance
from case_words import write
from commits import first_causes, limits, nested, removals, rows, times, two_branches
from families import kept
from failures import faults, index_faults, log_faults, reading_faults, refused_or_failed
from grafts import graft_readings, graft_stops, grafts, grafts_by_chance
from logs import indexes, logs, one_time, path_logs
from names import deletions, moves, of_names, switches
from openings import opening, reopened_between, reopening
from packs import pack_stops, packed_delete_stops, packed_rename_stops, packs, reopened_packs
from pieces import cuts, pieces
from printed import printed
from readings import readers, readings
from recoveries import recoveries
from renames import renamed_tags, renames
from short_ids import short_ids
from sizes import histories, lengths, roots, tags as many_tags
from stops import delete_stops, move_stops, rename_stops, reopened_stops, stops, switch_stops, tag_rename_stops, tag_stops
from streams import KINDS, ROWS
from tags import tags
from transactions import transactions

BY_HAND = (
    rows, first_causes, two_branches, of_names, moves, renames, deletions, switches, tags, renamed_tags, indexes, logs, path_logs, short_ids,
    removals, nested, limits, times, one_time, opening, reopening, reopened_between, readings, readers, faults, index_faults, reading_faults,
    refused_or_failed, log_faults, move_stops, rename_stops, delete_stops, switch_stops, tag_stops, tag_rename_stops, stops, reopened_stops,
    packs, pack_stops, packed_delete_stops, packed_rename_stops, reopened_packs, transactions, grafts, graft_readings, graft_stops, printed, histories, many_tags,
    roots, lengths)


if __name__ == "__main__":
    for part in BY_HAND:
        part()
    for kind in KINDS:
        recoveries(kind)
    ROWS.extend([*any_bytes.rows(), *rounds.stops(), *rounds.leftovers()])
    chance = random.Random(23)
    for number in range(200):
        by_chance(chance, list(KINDS)[number % 2])
    for number in range(80):
        by_chance(chance, list(KINDS)[number % 2], True)
    chance = random.Random(41)
    for number in range(60):
        logs_by_chance(chance, list(KINDS)[number % 2])
    chance = random.Random(29)
    for number in range(80):
        grafts_by_chance(chance, list(KINDS)[number % 2])
    pieces()
    cuts()
    write(Path(__file__), ROWS + kept(__file__, "files", "sizes"))
