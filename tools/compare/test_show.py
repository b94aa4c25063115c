"""Holds show.py to finding a fault of vrtshow.

    python3 tools/compare/test_show.py [COMMAND ..]

Each fault below is put into a copy of show/, one at a time, which is built and run by COMMAND;
the group of show.py above it must find a difference.
"""

import os
import shutil
import subprocess
import sys
import tempfile
from concurrent.futures import ThreadPoolExecutor
from pathlib import Path

HERE = Path(__file__).resolve().parent
ROOT = HERE.parent.parent

# By the group of show.py: the file, what stands in it, once, and what takes its place.
FAULTS = {
    "values": [
        ("lines.c", "(1 << 19)", "0"),
        ("lines.c", 'thousandths & 0xFFFFF ? "~" : ""', '""'),
        ("lines.c", "rest = rest * 10 & 0xFFFFF", "rest = 0"),
        ("lines.c", "-(shown->hertz + up)", "-shown->hertz"),
        ("lines.c", "(double)shown->levels[0], (double)shown->levels[1]", "(double)shown->levels[1], (double)shown->levels[0]"),
        ("lines.c", "before && old.kind != VRT49_KIND_ABSENT", "before"),
        ("lines.c", '{VRT49_BIT_STATE, "state"}', '{VRT49_BIT_STATE, "device"}'),
        ("lines.c", "read.packet.tsf == VRT49_TSF_PICOSECONDS", "read.packet.tsf != VRT49_TSF_NONE"),
        ("lines.c", "if (read->tsf != VRT49_TSF_NONE)", "if (read->tsf == VRT49_TSF_PICOSECONDS)"),
        ("survey.c", "if (changed & TUNING_FIELDS || all->every)", "if (changed & TUNING_FIELDS)"),
        ("vrtshow.h", "#define TUNING_FIELDS 0x3FA00000u", "#define TUNING_FIELDS 0x3F800000u"),
        ("lines.c", 'all->chosen_n != 0 ? ",items,format,vector" : ""', '",items,format,vector"'),
        ("lines.c", "    if (all->chosen_n != 0)\n", ""),
    ],
    "surveys_49a": [
        # which packets are read as 49A
        ("survey.c", "is_among(ids[s], all->chosen, all->chosen_n) ? VRT49_SURVEY : VRT49_PLAIN", "VRT49_SURVEY"),
        ("survey.c", "is_among(ids[s], all->chosen, all->chosen_n) ? VRT49_SURVEY : VRT49_PLAIN", "VRT49_PLAIN"),
        ("survey.c", "is_among(ids[s], all->chosen, all->chosen_n)", "is_among(ids[s], all->chosen, 1)"),
        ("survey.c", "said->number != VRT49_OK || said->type != VRT49_TYPE_DATA", "said->number != VRT49_OK"),
        ("survey.c", "    if (at->choice == VRT49_SURVEY)\n        accepted", "    if (0)\n        accepted"),
        ("survey.c", "if (number != VRT49_OK && number != VRT49_STREAM)", "if (number != VRT49_OK && number != VRT49_STREAM && number != VRT49_PAD)"),
        # where a line is due
        ("survey.c", "of->samples.first != first || ", ""),
        ("survey.c", "of->samples.second != second ||", ""),
        ("survey.c", "(all->every && of->samples.items != items)", "of->samples.items != items"),
        ("survey.c", "(all->every && of->samples.items != items)", "0"),
        # what it says, and the summary
        ("survey.c", "    of->items += of->samples.items;\n", ""),
        ("survey.c", "    of->sampled++;\n", "    of->sampled = 1;\n"),
        ("lines.c", 'code == 0 ? "signed" : code == 16 ? "unsigned" : "float"', 'code == 16 ? "unsigned" : "signed"'),
        ("lines.c", "item_name(samples->first), samples->second + 1);\n}\n\n/* Which", "item_name(samples->first), samples->second);\n}\n\n/* Which"),
        ("lines.c", "    if (of->choice != VRT49_SURVEY)\n        return;\n", ""),
        ("lines.c", 'of->sampled != 0 ? "; the last has " : "\\n"', '"; the last has "'),
        ("lines.c", "its class, its trailer or its padding", "its class or its padding"),
        # in CSV
        ("lines.c", "if (!at || at->choice != VRT49_SURVEY)", "if (!at)"),
        ("lines.c", 'row(all, of, at, "samples", ",,,,")', 'row(all, of, at, "other", ",,,,")'),
        ("lines.c", "    if (all->chosen_n != 0)\n        put_samples_cells(at, &read);\n    put_place_cells(at);\n", "    put_place_cells(at);\n    if (all->chosen_n != 0)\n        put_samples_cells(at, &read);\n"),
        ("lines.c", '",%" PRIu32 ",%s %" PRIu32 " bits', '",%" PRIu32 ",%s,%" PRIu32 " bits'),
    ],
    "states": [
        # the state in lines: its indicators, their names and values, the user bits
        ("lines.c", "if (vrt49_state_holds(state, INDICATORS[i].bit))", "if (1)"),
        ("lines.c", "if (vrt49_state_holds(state, INDICATORS[i].bit))", "if (vrt49_state_on(state, INDICATORS[i].bit))"),
        ("lines.c", "vrt49_state_on(state, INDICATORS[i].bit) ?", "state >> (INDICATORS[i].bit - 11) & 1 ?"),
        ("lines.c", "vrt49_state_on(state, INDICATORS[i].bit) ?", "state >> INDICATORS[i].bit & 1 ?"),
        ("lines.c", 'REFERENCE_LOCK, "reference lock"},\n    {VRT49_STATE_AGC, "AGC"}', 'REFERENCE_LOCK, "AGC"},\n    {VRT49_STATE_AGC, "reference lock"}'),
        ("lines.c", 'DETECTED_SIGNAL, "detected signal"},\n    {VRT49_STATE_SPECTRAL_INVERSION, "spectral inversion"}', 'SPECTRAL_INVERSION, "spectral inversion"},\n    {VRT49_STATE_DETECTED_SIGNAL, "detected signal"}'),
        ("lines.c", '    {VRT49_STATE_CALIBRATED_TIME, "calibrated time"},\n', ""),
        ("lines.c", '    printf("user bits 0x%02" PRIX32, state & VRT49_STATE_USER);\n', '    printf("user bits");\n'),
        ("lines.c", "state & VRT49_STATE_USER", "state & 0x7F"),
        ("lines.c", '"user bits 0x%02" PRIX32', '"user bits 0x%02" PRIx32'),
        ("lines.c", "    if (OTHERS[i].bit != VRT49_BIT_STATE)\n        return;\n", "    if (1)\n        return;\n"),
        ("survey.c", "        return;\n    show(of);\n", "        return;\n    if (changed & TUNING_FIELDS)\n        show(of);\n"),
        # in the summary: its line missing, or of each stream
        ("lines.c", "    if (!holds_state(of))\n        return;\n", "    if (1)\n        return;\n"),
        ("lines.c", "    if (!holds_state(of))\n        return;\n", ""),
        ("lines.c", "    if (!holds_state(of))\n        return;\n", "    if (of->state == 0)\n        return;\n"),
        # in CSV: not there, of a stream that holds none, of the table's first stream
        ("lines.c", "of && holds_state(of)", "0"),
        ("lines.c", "of && holds_state(of)", "of"),
        ("lines.c", "of && holds_state(of)", "of && of->state != 0"),
        ("lines.c", '"0x%08" PRIX32, of->state', '"0x%08" PRIX32, of->state & ~VRT49_STATE_USER'),
        ("lines.c", "    put_cells(of);\n", "    put_cells(of ? all->streams : NULL);\n"),
        ("lines.c", 'temperature_c,state"', 'temperature_c"'),
    ],
    "refusals": [
        # which number, which word, of the packet and of the recording
        ("survey.c", "        all->stopped_by = refusal;\n", "        all->stopped_by = at->said->number;\n"),
        ("survey.c", "    tell_refused(all, at, refusal);\n", "    tell_refused(all, at, at->said->number);\n"),
        ("lines.c", "(at ? at->place : 0) + VRT49_PLACE(refusal)", "at ? at->place : 0"),
        ("lines.c", "ungrouped(all->stopped_at + VRT49_PLACE(all->stopped_by))", "ungrouped(all->stopped_at)"),
        ("vrtshow.c", "ungrouped(all.stopped_at + VRT49_PLACE(all.stopped_by))", "ungrouped(all.stopped_at)"),
        ("lines.c", "of the recording)\", VRT49_PLACE(refusal),", "of the recording)\", bit,"),
        ("lines.c", "    put_where(out, refusal, word);\n", ""),
        ("lines.c", "        put_where(stdout, refusal, word);\n", ""),
        ("lines.c", '"refused %" PRIu32 " %s: %s", VRT49_NUMBER(refusal)', '"refused %" PRIu32 " %s: %s", refusal'),
        ("lines.c", "    switch (VRT49_NUMBER(refusal)) {\n", "    switch (refusal) {\n"),
        # which field
        ("lines.c", "    if (VRT49_NUMBER(refusal) == VRT49_FIELD)\n        fprintf", "    if (0)\n        fprintf"),
        ("lines.c", "bit, vrt49_field_name(bit)", "bit, vrt49_field_name(bit - 1)"),
        # whose packet
        ("lines.c", '"type %" PRIu32 ", %s", read.packet.type', '"type %" PRIu32 " (%s)", read.packet.type'),
        ("lines.c", "if (has_identifier(&read.packet))", "if (1)"),
        # in CSV
        ("lines.c", '%s%s,place,bit\\n"', '%s%s,place\\n"'),
        ("lines.c", "    if (refusal != VRT49_OK)\n        printf", "    if (VRT49_PLACE(refusal) != 0)\n        printf"),
        ("lines.c", "    if (VRT49_NUMBER(refusal) == VRT49_FIELD)\n        printf", "    if (refusal != VRT49_OK)\n        printf"),
        ("lines.c", "    if (VRT49_NUMBER(refusal) == VRT49_FIELD)\n        printf", "    if (0)\n        printf"),
        ("lines.c", "    put_place_cells(at);\n", ""),
        # in the picture
        ("picture.c", "grouped(all->stopped_at + VRT49_PLACE(all->stopped_by))", "grouped(all->stopped_at)"),
        ("picture.c", "        put_refusal(on->out, all->stopped_by, stopped_word(all));\n", "        put_refusal(on->out, VRT49_NUMBER(all->stopped_by), stopped_word(all));\n"),
        ("picture.c", "    put_where(on->out, all->stopped_by, stopped_word(all));\n", ""),
    ],
    "surveys": [
        ("survey.c", "    of->since = 0;\n", ""),
        ("survey.c", "    of->context = at->number;\n", ""),
        ("survey.c", "centre += has_rf ?", "centre = has_rf ?"),
        ("survey.c", "/ 2;\n", ";\n"),
        ("survey.c", "all->others++;", "all->unnamed++;"),
        ("survey.c", "    if (changed & TUNING_FIELDS || all->every)", "    if (changed)"),
        ("doubt.c", "        of->doubt.total += of->since;\n", ""),
        ("doubt.c", "    of->doubt.fields &= ~carried(at);\n", "    of->doubt.fields = 0;\n"),
        ("columns.c", "c <= last; c++", "c < last; c++"),
        ("columns.c", "(size_t)(of->doubt.since >> all->shift); c", "last; c"),
        ("picture.c", "    if (of->tunings <= DENSE)\n        draw_unsure(on, of);\n", ""),
        ("picture.c", "V%.1fH%.1fz\", x, y_of(on, now->last.high)", "V%.1fH%.1fz\", x, y_of(on, now->last.centre)"),
        ("picture.c", "of->columns[c].contexts_missing, \"missing", "of->columns[c].missing, \"missing"),
        ("lines.c", "count.started", "count.seen > 1"),
        ("lines.c", '",0x%08" PRIX32, read->identifier', '",0x%08" PRIX32, read->identifier + 1'),
    ],
    "columns": [
        ("columns.c", "sum.missing = into->missing + next->missing", "sum.missing = next->missing"),
        ("columns.c", "into->contexts_missing + next->contexts_missing", "into->contexts_missing"),
        ("columns.c", "into->unsure | next->unsure", "next->unsure"),
        ("columns.c", "refused[2 * c] + refused[2 * c + 1]", "refused[2 * c]"),
        ("columns.c", "    memset(columns + COLUMNS / 2, 0, COLUMNS / 2 * sizeof columns[0]);\n", ""),
        ("columns.c", "all->packets >> all->shift >= COLUMNS", "all->packets >> all->shift > COLUMNS - 2"),
        ("picture.c", "last = on->all->packets - 1;", "last = on->all->packets;"),
        ("picture.c", "first_of(on, c)), y,\n", "first_of(on, c + 1)), y,\n"),
    ],
    "seams": [
        ("survey.c", "if (at->said->type != VRT49_TYPE_EXTENSION_CONTEXT)\n        count", "if (at->said->type == VRT49_TYPE_DATA)\n        count"),
        ("survey.c", "if (at->said->type != VRT49_TYPE_EXTENSION_CONTEXT)\n        count", "    count"),
        ("doubt.c", "        note_unsure(all, of);\n    return doubted;", "        ;\n    return doubted;"),
        ("lines.c", 'data packets",\n           of->doubt.since, of->', 'data packets",\n           at->number, of->'),
        ("picture.c", '"context", "l5 6l-5 6l-5 -6z"', '"context", "v11"'),
    ],
    "doubts": [
        # a doubt that ends at any Context packet, or at none
        ("doubt.c", "    of->doubt.fields &= ~carried(at);\n", "    of->doubt.fields = 0;\n"),
        ("doubt.c", "    of->doubt.fields &= ~carried(at);\n", "    if (carried(at) & TUNING_FIELDS)\n        of->doubt.fields = 0;\n"),
        ("doubt.c", "    of->doubt.fields &= ~carried(at);\n", "    if ((carried(at) & doubted) == doubted)\n        of->doubt.fields = 0;\n"),
        ("doubt.c", "    of->doubt.fields &= ~carried(at);\n", ""),
        # fields that are forgotten, or not taken, at a second loss; those that are not held
        ("doubt.c", "    of->doubt.fields = held;\n", "    of->doubt.fields = of->doubt.fields ? of->doubt.fields : held;\n"),
        ("doubt.c", "    of->doubt.fields = held;\n", "    of->doubt.fields = held & ~of->doubt.fields;\n"),
        ("doubt.c", "    of->doubt.fields = held;\n", "    of->doubt.fields = of->doubt.fields ? 0 : held;\n"),
        ("doubt.c", "uint32_t held = of->held & TUNING_FIELDS;", "uint32_t held = of->held;"),
        ("doubt.c", "uint32_t held = of->held & TUNING_FIELDS;", "uint32_t held = TUNING_FIELDS;"),
        ("doubt.c", "    if (at->said->missing != 0)\n        begin", "    if (at->said->missing > 1)\n        begin"),
        ("doubt.c", "    if (at->said->missing != 0)\n        begin", "    if (at->said->missing != 0 && of->doubt.fields == 0)\n        begin"),
        # where it begins, and what is counted in it
        ("doubt.c", "of->doubt.fields == 0 && held != 0", "held != 0"),
        ("doubt.c", "of->doubt.fields == 0 && held != 0", "of->doubt.fields == 0"),
        ("doubt.c", "        of->doubt.packets = of->since;\n", "        of->doubt.packets = 0;\n"),
        ("doubt.c", "        of->doubt.packets = of->since;\n", "        of->doubt.packets += of->since;\n"),
        ("doubt.c", "        of->doubt.total += of->since;\n", "        of->doubt.total = of->since;\n"),
        ("doubt.c", "    of->doubt.packets += unsure;\n", ""),
        ("doubt.c", "    of->doubt.total += unsure;\n", ""),
        ("doubt.c", "    of->doubt.total += unsure;\n", "    of->doubt.total += 2 * unsure;\n"),
        ("doubt.c", "unsure = of->doubt.fields != 0;", "unsure = 1;"),
        ("doubt.c", "of->untuned += (of->held & TUNING_FIELDS) == 0;", "of->untuned += of->held == 0;"),
        ("doubt.c", "of->untuned += (of->held & TUNING_FIELDS) == 0;", "of->untuned++;"),
        ("survey.c", "    uint32_t doubted = doubt_at(all, of, at);\n    if (at->said->missing != 0)\n        tell_missing(all, of, at, doubted);\n    look(all, of, at);\n", "    uint32_t doubted;\n    look(all, of, at);\n    doubted = doubt_at(all, of, at);\n    if (at->said->missing != 0)\n        tell_missing(all, of, at, doubted);\n"),
        # what is said of it
        ("survey.c", "at->said->missing == 0 && doubted != 0 && of->doubt.fields == 0", "0"),
        ("survey.c", "at->said->missing == 0 && doubted != 0 && of->doubt.fields == 0", "doubted != 0 && of->doubt.fields == 0"),
        ("survey.c", "at->said->missing == 0 && doubted != 0 && of->doubt.fields == 0", "at->said->missing == 0 && doubted != of->doubt.fields"),
        ("survey.c", "at->said->missing == 0 && doubted != 0 && of->doubt.fields == 0", "all->every && at->said->missing == 0 && doubted != 0 && of->doubt.fields == 0"),
        ("survey.c", "tell_missing(all, of, at, 0);", "tell_missing(all, of, at, of->doubt.fields);"),
        ("lines.c", "    put_doubt(of->doubt.fields);\n}\n\nvoid tell_missing", "    put_doubt(0);\n}\n\nvoid tell_missing"),
        ("lines.c", "    put_doubt(of->doubt.fields);\n}\n\nvoid tell_missing", "    put_doubt(doubted);\n}\n\nvoid tell_missing"),
        ("lines.c", "    put_doubt(of->doubt.fields);\n}\n\nvoid tell_summary", "    put_doubt(0);\n}\n\nvoid tell_summary"),
        ("lines.c", '" data packets\\n", of->doubt.since, of->doubt.packets', '" data packets\\n", of->context, of->doubt.packets'),
        ("lines.c", '" data packets\\n", of->doubt.since, of->doubt.packets', '" data packets\\n", of->doubt.since, of->doubt.total'),
        ("lines.c", "if (of->doubt.total == 0 && of->doubt.fields == 0)", "if (of->doubt.total == 0)"),
        ("lines.c", "if (of->doubt.total == 0 && of->doubt.fields == 0)", "if (of->doubt.fields == 0)"),
        ("lines.c", "    if (of->untuned != 0)\n", "    if (0)\n"),
        ("lines.c", 'data packets", grouped(of->doubt.total)', 'data packets", grouped(of->doubt.packets)'),
        ("lines.c", '"0x%08" PRIX32, of->doubt.fields', '"0x%08" PRIX32, of->held & TUNING_FIELDS'),
        ("lines.c", "    if (of)\n        printf(\"0x%08", "    if (of && of->doubt.fields)\n        printf(\"0x%08"),
        ("lines.c", "    if (doubted != 0)\n        snprintf", "    if (of->doubt.fields != 0)\n        snprintf"),
        ("lines.c", '",%" PRIu64 ",,,", of->doubt.since', '",%" PRIu64 ",,,", at->number'),
        # the span: early, late, not to the end; marks that are not drawn
        ("doubt.c", "        if (of->doubt.fields != 0)\n            note_unsure(all, of);\n", "        ;\n"),
        ("columns.c", "(all->packets - 1) >> all->shift", "all->packets >> all->shift"),
        ("columns.c", "(all->packets - 1) >> all->shift", "of->context >> all->shift"),
        ("columns.c", "c <= last; c++", "c < last; c++"),
        ("columns.c", "(size_t)(of->doubt.since >> all->shift); c", "(size_t)(of->doubt.since >> all->shift) + 1; c"),
        ("picture.c", "wide < 2 ? 2 : wide", "wide < 20 ? 20 : wide"),
        ("picture.c", "x_of(on, first_of(on, to + 1)) - x", "x_of(on, first_of(on, to)) - x"),
        ("picture.c", 'of->columns[c].missing, "missing")', 'of->columns[c].contexts_missing ? 0 : of->columns[c].missing, "missing")'),
    ],
    "pieces": [
        ("recording.c", "    from->before += from->at;\n", ""),
        ("recording.c", "4 * left + from->loose);\n    from->before", "4 * left);\n    from->before"),
        ("recording.c", "from->ended = got <= 0;", "from->ended = got <= 0 || used + (size_t)got < sizeof from->words;"),
        ("recording.c", "(from->words + left, from->have - left)", "(from->words, from->have)"),
        ("survey.c", "entries[i].number == VRT49_CUT && !from->ended", "0"),
    ],
    "cut": [
        ("survey.c", "stopped_at = from->before + from->at", "stopped_at = from->before + from->have"),
        ("lines.c", "    if (VRT49_NUMBER(refusal) == VRT49_LIST)\n        return;\n", ""),
        ("lines.c", "uint32_t refusal = at ? vrt49_entry_refusal(at->said) : VRT49_OK;", "uint32_t refusal = at ? vrt49_entry_refusal(at->said) : VRT49_LIST;"),
        ("recording.c", "(from->live || from->ended ? from->bytes : from->size) % 4", "0"),
        ("vrtshow.c", "    tell_end();\n    return REFUSED;", "    tell_end();\n    return 0;"),
        ("picture.c", "if (all->stopped_by == VRT49_OK || all->packets == 0)", "if (1)"),
        ("picture.c", "x_of(on, all->packets - 1)", "x_of(on, all->packets)"),
    ],
    "live": [("recording.c", "        fflush(stdout);\n", "        ;\n")],
    "outside": [
        ("picture.c", 'fputs("&amp;", out)', 'fputs("&", out)'),
        ("picture.c", "*at < 32 || *at > 126 ? '?' : *at", "*at"),
        ("vrtshow.c", "if (fflush(stdout) != 0 || ferror(stdout))", "if (0)"),
        ("vrtshow.c", "if (fclose(svg) != 0 || failed)", "if (0)"),
        ("vrtshow.c", "if (all.manner != LINES)", "if (0)"),
        ("vrtshow.c", "    if (*into)\n", "    if (0)\n"),
        ("vrtshow.c", '"has no file behind it"', '"one too many"'),
        ("vrtshow.c", "    if (left < 2)\n", "    if (left < 1)\n"),
        ("vrtshow.c", '"has no identifiers behind it"', '"has no file behind it"'),
        ("vrtshow.c", '"has no packet behind it"', '"has no file behind it"'),
        ("vrtshow.c", " || errno != 0)\n        wrong_use(text", ")\n        wrong_use(text"),
        ("vrtshow.c", "text[0] == 0 || text[strspn", "text[strspn"),
        ("vrtshow.c", "    if (at_text)\n        wrong_use", "    if (0)\n        wrong_use"),
        ("vrtshow.c", "if (svg_path || all.every || all.manner == SUMMARY)", "if (svg_path || all.manner == SUMMARY)"),
        ("vrtshow.c", "if (svg_path || all.every || all.manner == SUMMARY)", "if (all.every || all.manner == SUMMARY)"),
        ("vrtshow.c", "if (svg_path || all.every || all.manner == SUMMARY)", "if (svg_path || all.every)"),
        ("vrtshow.c", "    if (all.manner == CSV && !at_text)\n", "    if (0)\n"),
        ("vrtshow.c", "    if (!at_text && !kept.path)\n", "    if (!at_text)\n"),
        ("vrtshow.c", "number > UINT32_MAX", "0"),
        ("vrtshow.c", "n == 0 || n > 10", "n > 10"),
        ("vrtshow.c", " || list[strlen(list) - 1] == ','", ""),
        ("vrtshow.c", "    if (all.chosen_n != 0)\n", "    if (0)\n"),
        ("vrtshow.c", "    if (all.unlisted) {\n", "    if (0) {\n"),
        ("survey.c", "    note_unlisted(all, from->words + 1, from->words[0]);\n", ""),
        ("survey.c", "i < all->chosen_n && !all->unlisted; i++", "i < 1 && !all->unlisted; i++"),
        ("vrtshow.c", 'a[0] == \'-\' && a[1] != 0)', 'strcmp(a, "-x") == 0)'),
        ("vrtshow.c", '"vrtshow: %s: %s\\n%s", argument, what, USAGE', '"%s", USAGE'),
        ("vrtshow.c", '"vrtshow: %s: %s\\n%s", argument, what, USAGE', '"vrtshow: %s: %s\\n", argument, what'),
    ],
    "behind": [
        ("vrtshow.c", "i < argc; i += take", "i < argc && !path; i += take"),
        ("vrtshow.c", "    const char *a = argument[0];\n    if (strcmp(a, \"--help\")", '    const char *a = argument[0];\n    if (path && a[0] == \'-\')\n        wrong_use(a, "no such option");\n    if (strcmp(a, "--help")'),
    ],
    "kept": [
        ("vrtshow.c", 'is_picture(&there) ? NULL : "is not a picture"', "NULL"),
        ("vrtshow.c", '        return "is the recording";\n', "        ;\n"),
        ("vrtshow.c", "fstat(from.file, &recorded) == 0 &&", "path && fstat(from.file, &recorded) == 0 &&"),
        ("vrtshow.c", "fstat(from.file, &recorded) == 0", "stat(name, &recorded) == 0"),
        ("vrtshow.c", " && a->st_ino == b->st_ino", ""),
        ("vrtshow.c", "stat(svg_path, &there) != 0", "lstat(svg_path, &there) != 0"),
        ("vrtshow.c", "return first == '<';", "return first != 0;"),
        ("vrtshow.c", "return first == '<';", "return first == '<' || first == ' ' || first == 10;"),
        ("vrtshow.c", "        svg = open_picture();\n    show_recording();\n", "        ;\n    show_recording();\n    if (svg_path)\n        svg = open_picture();\n"),
        ("vrtshow.c", "    const char *why = destroyed();\n    FILE *svg;\n    int file;\n", "    FILE *svg = fopen(svg_path, \"r+\");\n    const char *why = destroyed();\n    int file;\n    if (svg && why)\n        fputc('<', svg);\n"),
        ("vrtshow.c", "ftruncate(fileno(svg), 0) != 0", "0"),
        ("vrtshow.c", "%s: %s: not written over\\n\", svg_path, why", "%s: %s: not written over\\n\", name, why"),
    ],
    "failing": [
        ("vrtshow.c", "    if (from.failed) {\n", "    if (0) {\n"),
        ("survey.c", "all->stopped_by != VRT49_OK && !from->failed)", "all->stopped_by != VRT49_OK)"),
        ("survey.c", "all->stopped_by == VRT49_OK && !from->failed &&", "all->stopped_by == VRT49_OK &&"),
    ],
    "captures": [
        ("vrtshow.c", "0xD4C3B2A1, ", ""),
        ("vrtshow.c", ", 0x0A0D0D0A}", "}"),
        ("vrtshow.c", "if (first == CAPTURES[i])", "if (first >> 8 == CAPTURES[i] >> 8)"),
        ("vrtshow.c", "== VRT49_LIST && from.have != 0", "== VRT49_LIST && from.have != 0 && path"),
    ],
    "tails": [
        ("recording.c", "from->live || from->ended ? from->bytes : from->size", "from->bytes"),
        ("recording.c", "from->live || from->ended ? from->bytes : from->size", "from->ended ? from->bytes : from->size"),
        ("vrtshow.c", "(uint64_t)(status.st_size - at)", "(uint64_t)status.st_size"),
    ],
    "tables": [
        # which packet, which table, and where it stands
        ("jump.c", "    if (i < packets && (entries[i].number != VRT49_CUT || from->ended))\n", "    if (i < packets)\n"),
        ("jump.c", "if (entries[i].number != VRT49_OK && entries[i].number != VRT49_STREAM)", "if (entries[i].number != VRT49_OK)"),
        ("jump.c", "left < RUN ? (size_t)left : RUN", "RUN"),
        ("jump.c", "while (all->packets < n &&", "while (all->packets + 1 < n &&"),
        ("jump.c", "    all->stopped_at = from->before + from->at;\n    take_streams(all);\n", "    all->stopped_at = from->before + from->at;\n"),
        ("jump.c", "    all->packets = n;\n    take_streams(all);\n", "    all->packets = n;\n"),
        ("jump.c", "return kept->front + place;", "return place;"),
        ("jump.c", "VRT49_PACKET_WORDS * (n % VRT49_INDEX_SPACING)", "n % VRT49_INDEX_SPACING"),
        ("vrtshow.c", "at_packet <= vrt49_index_packets(kept.words)", "at_packet < vrt49_index_packets(kept.words)"),
        ("vrtshow.c", "    if (all.packets < at_packet) {\n", "    if (0) {\n"),
        ("vrtshow.c", "    all.stopped_by = VRT49_OK; /* behind the packet */\n", ""),
        ("vrtshow.c", "VRT49_PLACE, vrt49_name(VRT49_PLACE)", "VRT49_PAGE, vrt49_name(VRT49_PAGE)"),
        ("vrtshow.c", "            grouped(all.packets), place);\n", "            grouped(all.packets - 1), place);\n"),
        ("vrtshow.c", "    return good ? 0 : REFUSED;\n", "    return 0;\n"),
        # what is said of it
        ("table.c", '        put_held(of, "tuning");\n', '        put_held(all->streams, "tuning");\n'),
        ("table.c", "        put_packets(all, of);\n", "        put_packets(all, all->streams);\n"),
        ("table.c", "if (of->choice == VRT49_SURVEY)", "if (0)"),
        ("table.c", "if (of->choice == VRT49_SURVEY)", "if (all->chosen_n != 0)"),
        ("table.c", ",%\" PRIu32, count.seen, count.missing, count.last", ",%\" PRIu32, count.seen, count.last, count.missing"),
        ("table.c", "        if (count.started)\n", "        if (count.seen > 1)\n"),
        ("table.c", "        put_cells(of);\n", "        put_cells(all->streams);\n"),
        ("table.c", "of->identifier, of->choice, of->held", "of->identifier, of->choice, of->held & TUNING_FIELDS"),
        # the line of the index
        ("index.c", "    uint64_t at = kept->front + vrt49_index_reached(kept->words);\n", "    uint64_t at = vrt49_index_reached(kept->words);\n"),
        ("index.c", "ungrouped(at + VRT49_PLACE(kept->ended_by))", "ungrouped(at)"),
        ("index.c", "        all->stopped_by = kept->ended_by;\n", "        ;\n"),
        ("index.c", "at, tail_of(from)", "at, 0"),
        # words in the other order
        ("recording.c", "(from->little ? from_little : from_big)(into, used / 4)", "from_big(into, used / 4)"),
        ("store.c", "        putc((int)(words[i] >> 24), file);\n", "        putc((int)(words[i] >> 24 & 127), file);\n"),
    ],
    "indexes": [
        # what is taken in, and what is written
        ("index.c", "(number == VRT49_EMPTY || number == VRT49_CUT)", "number == VRT49_EMPTY"),
        ("index.c", "if (!kept->there || all->packets != before)", "if (!kept->there)"),
        ("index.c", "if (!kept->there || all->packets != before)", "if (all->packets != before)"),
        ("index.c", "        seek_to(from, place);\n", "        seek_to(from, kept->front);\n"),
        ("vrtshow.c", "    if (!at_text || !kept.there || at_packet > vrt49_index_packets(kept.words))\n", "    if (!at_text || !kept.there)\n"),
        ("vrtshow.c", "    if (!at_text || !kept.there || at_packet > vrt49_index_packets(kept.words))\n", ""),
        ("vrtshow.c", "!at_text || !kept.there || at_packet", "!at_text || at_packet"),
        ("recording.c", "lseek(from->file, (off_t)(from->start + from->bytes), SEEK_SET)", "lseek(from->file, (off_t)from->bytes, SEEK_SET)"),
        ("recording.c", "(off_t)(from->start + 4 * word + used)", "(off_t)(4 * word + used)"),
        # what is left alone
        ("index.c", "           vrt49_index_words(kept->words) == words_n;\n", "           1;\n"),
        ("index.c", "    if (!is_index(kept, words_n, table, &length))\n        no_index(kept);\n", "    (void)is_index(kept, words_n, table, &length);\n"),
        ("index.c", "    else if (found < 0)\n        no_index(kept);\n", "    else if (found < 0)\n        return;\n"),
        ("index.c", "    check_streams(kept, 0, table, length, all);\n", ""),
        ("index.c", "    if (memcmp(table, all->table, length * sizeof table[0]) != 0)\n", "    if (0)\n"),
        ("index.c", "    if (length != all->layout) {\n", "    if (length > all->layout) {\n"),
        ("index.c", "    if (length != all->layout) {\n", "    if (length < all->layout) {\n"),
        ("index.c", "identifier == of->identifier && choice == of->choice", "choice == of->choice"),
        ("index.c", "identifier == of->identifier && choice == of->choice", "identifier == of->identifier"),
        ("index.c", "        check_stream(kept, entry, all, s, identifier, choice);\n", "        check_stream(kept, entry, all, 0, identifier, choice);\n"),
        ("index.c", "is_survey ? \"does not name\" : \"names\"", "\"names\""),
        ("jump.c", "    check_streams(kept, n / VRT49_INDEX_SPACING, table, length, all);\n", ""),
        ("jump.c", "    check_streams(kept, n / VRT49_INDEX_SPACING, table, length, all);\n", "    check_streams(kept, 0, table, length, all);\n"),
        ("jump.c", "    memcpy(all->table, table, length * sizeof table[0]);\n", ""),
        ("index.c", "    check_inside(kept, from, vrt49_index_reached(kept->words));\n", "    (void)from;\n"),
        ("jump.c", "    check_inside(kept, from, first);\n", ""),
        ("jump.c", "    if (number != VRT49_OK)\n", "    if (0)\n"),
        ("jump.c", "    check_place(kept, n, place);\n", ""),
        ("jump.c", "n != vrt49_index_packets(kept->words) || place == reached", "n != vrt49_index_packets(kept->words) || place >= reached"),
        ("jump.c", "n != vrt49_index_packets(kept->words) || place == reached", "n != vrt49_index_packets(kept->words) || place <= reached"),
        ("jump.c", "n != vrt49_index_packets(kept->words) || place == reached", "place == reached"),
        ("vrtshow.c", "    if (is_recording(kept.path))\n", "    if (0)\n"),
        ("vrtshow.c", "    if (from.live)\n        wrong_file", "    if (0)\n        wrong_file"),
        ("store.c", "return got == 0 ? (long)n : -2;", "return (long)n;"),
        ("store.c", "    if (found && !S_ISREG(there.st_mode))", "    if (0)"),
        # how it is written
        ("store.c", "realpath(path, whole) ? whole : path", "path"),
        ("store.c", "        if (lstat(path, &there) == 0)\n", "        if (0)\n"),
        ("store.c", "    fclose(file);\n    unlink(beside);\n", "    fclose(file);\n"),
        ("store.c", "    unlink(beside);\n    errno = why;\n", "    errno = why;\n"),
        ("store.c", "        return there.st_mode & 0777;\n", "        return 0600;\n"),
    ],
    "full": [
        ("vrtshow.c", "if (!kept.path || kept.ended_by == VRT49_ROOM)", "if (!kept.path)"),
        ("index.c", "        tell_full(kept);\n", "        ;\n"),
        ("index.c", "    if (kept->ended_by == VRT49_ROOM)\n        tell_full(kept);\n    else if", "    if"),
        ("vrtshow.c", "return VRT49_NUMBER(kept.ended_by) == VRT49_EMPTY;", "return 1;"),
    ],
    "pictures": [("picture.c", ".unsure{fill:#ffb020;", ".unsure{fill:#ffb021;")],
    "progress": [
        ("vrtshow.c", "from.size > LARGE && isatty(2)", "isatty(2)"),
        ("recording.c", "    if (from->shown)\n", "    if (0)\n"),
        ("vrtshow.c", "all.manner == SUMMARY || at_text || kept.path || !isatty(1)", "all.manner == SUMMARY"),
        ("index.c", "                try_store(kept->path);\n", "                ;\n"),
        ("index.c", "vrt49_index_packets(kept->words) == before + 1", "vrt49_index_packets(kept->words) == before + 200"),
    ],
}


def noticed(group, file, stands, fault):
    with tempfile.TemporaryDirectory() as folder:
        copy, program = Path(folder, "show"), Path(folder, "vrtshow")
        shutil.copytree(ROOT / "show", copy)
        text = (copy / file).read_text()
        if text.count(stands) != 1:
            return f"show/{file} has not once: {stands}"
        (copy / file).write_text(text.replace(stands, fault))
        built = subprocess.run([ROOT / "show/build", program, copy], capture_output=True, text=True)
        if built.returncode != 0:
            return f"{fault} is not built: {built.stderr}"
        command = [sys.executable, HERE / "show.py", group, "--", *sys.argv[1:], program]
        done = subprocess.run(command, capture_output=True, text=True)
        # a difference is status 1, and so is a mistake of show.py, which stops on stderr
        if done.returncode != 1 or done.stderr:
            return f"{group}: not noticed: {stands} became {fault}\n{done.stdout}{done.stderr}"
    return None


def main():
    os.environ["CFLAGS"] = os.environ.get("CFLAGS", "") + " -Wno-error"
    faults = [(group, *fault) for group in FAULTS for fault in FAULTS[group]]
    with ThreadPoolExecutor(int(os.environ.get("JOBS", "2"))) as pool:
        wrong = [said for said in pool.map(lambda fault: noticed(*fault), faults) if said]
    for said in wrong:
        print(said)
    if wrong:
        sys.exit(1)
    print(f"vrtshow itself: {len(faults)} faults put into a copy, each noticed")


if __name__ == "__main__":
    main()
