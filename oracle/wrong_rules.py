"""Document 01's numbers and easy errors, each put wrongly: one change to the second program, and the calls that must show it.

A rule is a row of 01, the wrong rule in words, the file of oracle/second, the text there, the text instead, the calls.
"""

from typing import NamedTuple


class Wrong(NamedTuple):
    row: str
    words: str
    file: str
    old: str
    new: str
    calls: str


MATRICES = "compute_iou_distance_matrix iou_matrix"
LIVES = "update_matched update_missed coverage extended"
FRAMES = "extended mot metrics"
COUNTERS = "frame_id", "num_matches", "num_misses", "num_false_positives", "num_switches", "num_objects"
COUNTS = "tracked_frames", "detected_frames", "fragmentations"
RULES = []


def wrong(row, file, *rules):
    """Rules of one row and file: words, old, new, calls."""
    RULES.extend(Wrong(row, words, file, old, new, calls) for words, old, new, calls in rules)


def instead(row, file, old, *rules):
    """Rules that change the same text: words, new, calls."""
    wrong(row, file, *((words, old, new, calls) for words, new, calls in rules))


FORGET = """    for row, gt_id in enumerate(truth):
        if row not in [pair[0] for pair in pairs] and gt_id in places:
            %s
    """
wrong("error 1", "search.py",
      ("costs over max_cost are infinite before the search", "reduced(padded(cost, rows, columns))",
       "reduced(padded([x if x <= max_cost else INFINITY for x in cost], rows, columns))",
       "linear_sum_assignment extended"))
wrong("error 2", "search.py", ("the search tests zero with == 0.0", "abs(x) < 1e-10", "x == 0.0", "linear_sum_assignment"))
wrong("error 2", "floats.py", ("the zero test is == 0.0", "return abs(x) < 1e-10", "return x == 0.0", "is_zero"))
wrong("error 3", "extended.py",
      ("a miss forgets the last id", "lifecycles.missed(slot.life, self.frame), slot.partner)",
       "lifecycles.missed(slot.life, self.frame))", "extended"))
wrong("error 3", "mot.py",
      ("a miss forgets the last id", "    return State(log, table)",
       FORGET % "table.places[places[gt_id]] = gt_id, None" + "return State(log, table)", "mot"))
wrong("error 3", "metrics.py",
      ("a miss forgets the last id", "    return State(log, truths, seen)",
       FORGET % "truths.places[places[gt_id]] = Seen(gt_id)" + "return State(log, truths, seen)", "metrics"))
wrong("error 4", "metrics.py",
      ("an IoU of 0 is taken out", "if x >= threshold]", "if x >= threshold and x > 0.0]", "metrics"))

for name, old, calls in (
        ("boxes.py", "DONE, TOO_MANY, SHAPE, BAD_BOX, SHORT = 0,", "iou_distance " + MATRICES),
        ("search.py", "DONE, TOO_MANY, SHAPE = 0,", "linear_sum_assignment"),
        ("lifecycles.py", "DONE, UNSOUND, PASSED = 0,", "update_matched update_missed coverage"),
        ("extended.py", "DONE, UNSOUND, BAD_BOX, FULL, PASSED = 0,", "extended"),
        ("mot.py", "DONE, UNSOUND, TOO_MANY, SHAPE, FULL, LOG_FULL = 0,", "mot"),
        ("metrics.py", "DONE, UNSOUND, FULL, LOG_FULL = 0,", "metrics")):
    wrong("0", name, ("what is done gives another number", old, old[:-2] + "8,", calls))

# a state or record that isn't sound
SLOTS = "state.slots.is_sound(ids_of(state.slots))"
instead("1", "extended.py", SLOTS,
        ("a used count over its capacity is taken: slots", "(state.slots.is_over() or %s)" % SLOTS, "extended"),
        ("an id may stand twice: slots", "not state.slots.is_over()", "extended"),
        ("an id may not stand in a place beyond the used count either: slots",
         SLOTS + " and len({s.life.gt_id for s in state.slots.places[:state.slots.given]}) >= state.slots.given", "extended"))
LAST = "state.last_match.is_sound([truth for truth, _ in state.last_match.in_use()])"
instead("1", "mot.py", "not state.log.is_over() and " + LAST,
        ("a used count over its capacity is taken: log", LAST, "mot"),
        ("a used count over its capacity is taken: last_match",
         "not state.log.is_over() and (state.last_match.is_over() or %s)" % LAST, "mot"),
        ("a full log isn't sound", "state.log.used < state.log.most and " + LAST, "mot"),
        ("an id may stand twice: last_match", "not state.log.is_over() and not state.last_match.is_over()", "mot"))
TRUTHS = "state.truths.is_sound([seen.gt_id for seen in state.truths.in_use()])"
instead("1", "metrics.py", "not state.log.is_over() and " + TRUTHS,
        ("a used count over its capacity is taken: log", TRUTHS, "metrics"),
        ("a full log isn't sound", "state.log.used < state.log.most and " + TRUTHS, "metrics"),
        ("a used count over its capacity is taken: truth ids",
         "not state.log.is_over() and (state.truths.is_over() or %s)" % TRUTHS, "metrics"),
        ("an id may stand twice: truth ids", "not state.log.is_over() and not state.truths.is_over()", "metrics"))
HYPOTHESES = "state.hypotheses.is_sound(state.hypotheses.in_use())"
instead("1", "metrics.py", HYPOTHESES,
        ("a used count over its capacity is taken: hypothesis ids", "(state.hypotheses.is_over() or %s)" % HYPOTHESES,
         "metrics"),
        ("an id may stand twice: hypothesis ids", "not state.hypotheses.is_over()", "metrics"))
wrong("1", "frames.py", ("a full table isn't sound", "not self.is_over() and len", "self.used < self.most and len", FRAMES))
for k, name in enumerate(COUNTERS):
    wrong("1", "extended.py", ("a negative %s is taken" % name, "min(state.counters()) >= 0",
                               "min(x for k, x in enumerate(state.counters()) if k != %d) >= 0" % k, "extended"))
wrong("1", "extended.py", ("a counter of 0 isn't sound", "min(state.counters()) >= 0", "min(state.counters()) > 0", "extended"))
for name in COUNTS:
    wrong("1", "lifecycles.py", ("a negative %s is taken" % name, "life.%s >= 0" % name, "True", LIVES),
          ("a %s of 0 isn't sound" % name, "life.%s >= 0" % name, "life.%s > 0" % name, LIVES))
for name, old, calls in (
        ("lifecycles.py", "UNSOUND if not is_sound(life) else PASSED", "update_matched update_missed"),
        ("lifecycles.py", "    if not is_sound(life):\n", "coverage"),
        ("extended.py", "    if not is_sound(state):\n        return UNSOUND, state", "extended"),
        ("extended.py", "    if not is_sound(state):\n        return UNSOUND, 0", "extended"),
        ("mot.py", "    if not is_sound(state):\n        return UNSOUND, state", "mot"),
        ("mot.py", "    if not is_sound(state):\n        return \" \".join", "mot"),
        ("metrics.py", "    if not is_sound(state):\n        return UNSOUND, state", "metrics"),
        ("metrics.py", "    if not is_sound(state):\n        zero", "metrics")):
    where = "the update" if "UNSOUND, state" in old or "PASSED" in old else "coverage" if "life" in old else "the metrics"
    wrong("1", name, ("soundness is not tested by " + where, old, old.replace("not is_sound", "None and is_sound"), calls))

# more than 64
OVER = "rows > MOST_BOXES or columns > MOST_BOXES"
instead("2", "boxes.py", OVER,
        ("truth boxes are not counted", "columns > MOST_BOXES", MATRICES),
        ("predicted boxes are not counted", "rows > MOST_BOXES", MATRICES))
instead("2", "boxes.py", "MOST_BOXES = 64",
        ("65 boxes are taken", "MOST_BOXES = 65", MATRICES), ("64 boxes are refused", "MOST_BOXES = 63", MATRICES))
instead("2", "search.py", "rows > MOST or columns > MOST",
        ("rows are not counted", "columns > MOST", "linear_sum_assignment"),
        ("columns are not counted", "rows > MOST", "linear_sum_assignment"))
instead("2", "search.py", "MOST = 64",
        ("65 rows or columns are taken", "MOST = 65", "linear_sum_assignment"),
        ("64 rows or columns are refused", "MOST = 63", "linear_sum_assignment"))
instead("2", "frames.py", "any(len(ids) > MOST_A_SIDE or len(boxes) // 4 > MOST_A_SIDE for ids, boxes in sides)",
        *(("%s %s are not counted" % (side, what),
           "any(%s for k, (ids, boxes) in enumerate(sides))" % test.replace("KEPT", "k != %d" % k), "extended metrics")
          for k, side in enumerate(("truth", "predicted"))
          for what, test in (("ids", "len(ids) > MOST_A_SIDE and KEPT or len(boxes) // 4 > MOST_A_SIDE"),
                             ("boxes", "len(ids) > MOST_A_SIDE or len(boxes) // 4 > MOST_A_SIDE and KEPT"))),
        ("a part of four floats counts as a box",
         "any(len(ids) > MOST_A_SIDE or len(boxes) > 4 * MOST_A_SIDE for ids, boxes in sides)", "extended metrics"))
instead("2", "frames.py", "MOST_A_SIDE = 64",
        ("65 a side are taken", "MOST_A_SIDE = 65", FRAMES), ("64 a side are refused", "MOST_A_SIDE = 63", FRAMES))
instead("2", "mot.py", "len(truth) > MOST_A_SIDE or len(predicted) > MOST_A_SIDE",
        ("object ids are not counted", "len(predicted) > MOST_A_SIDE", "mot"),
        ("hypothesis ids are not counted", "len(truth) > MOST_A_SIDE", "mot"))

# shapes
instead("3", "frames.py", "any(len(boxes) != 4 * len(ids) for ids, boxes in sides)",
        ("truth ids and boxes may differ in number", "any(len(boxes) != 4 * len(ids) for ids, boxes in sides[1:])",
         "extended metrics"),
        ("predicted ids and boxes may differ in number", "any(len(boxes) != 4 * len(ids) for ids, boxes in sides[:1])",
         "extended metrics"),
        ("there may be more ids than boxes", "any(len(boxes) > 4 * len(ids) for ids, boxes in sides)", "extended metrics"),
        ("there may be more boxes than ids", "any(len(boxes) < 4 * len(ids) for ids, boxes in sides)", "extended metrics"),
        ("a run of box floats need not be whole fours", "any(len(boxes) // 4 != len(ids) for ids, boxes in sides)",
         "extended metrics"))
instead("3", "boxes.py", "len(truth) % 4 or len(predicted) % 4",
        ("the truth boxes' run need not be whole fours", "len(predicted) % 4", MATRICES),
        ("the predicted boxes' run need not be whole fours", "len(truth) % 4", MATRICES))
wrong("3", "boxes.py", ("a part of four floats counts for 2", "rows, columns = len(truth) // 4, len(predicted) // 4",
                        "rows, columns = -(-len(truth) // 4), -(-len(predicted) // 4)", MATRICES))
instead("3", "search.py", "rows == 0 and columns > 0 or len(cost) != rows * columns",
        ("no rows with columns are taken", "len(cost) != rows * columns", "linear_sum_assignment"),
        ("rows without columns are refused", "(rows == 0) != (columns == 0) or len(cost) != rows * columns",
         "linear_sum_assignment"),
        ("a longer matrix is taken", "rows == 0 and columns > 0 or len(cost) < rows * columns", "linear_sum_assignment"),
        ("a shorter matrix is taken", "rows == 0 and columns > 0 or len(cost) > rows * columns", "linear_sum_assignment"))
instead("3", "mot.py", "len(distances) != len(truth) * len(predicted)",
        ("a longer matrix is taken", "len(distances) < len(truth) * len(predicted)", "mot"),
        ("a shorter matrix is taken", "len(distances) > len(truth) * len(predicted)", "mot"),
        ("not the solver alone refuses no rows with columns",
         "len(distances) != len(truth) * len(predicted) or predicted and not truth", "mot"))
for name in ("extended", "metrics"):
    other = "predicted" if name == "extended" else "hypotheses"
    wrong("3", name + ".py", ("not the solver alone refuses no rows with columns", "    if number:\n",
                              "    if %s and not truth:\n        return 3, state\n    if number:\n" % other, name))

# boxes
BOXED = "iou_distance compute_iou_distance_matrix extended"
instead("4", "boxes.py", "x_max <= x_min or y_max <= y_min",
        ("x_max <= x_min is taken", "y_max <= y_min", BOXED), ("y_max <= y_min is taken", "x_max <= x_min", BOXED),
        ("x_max = x_min is taken", "x_max < x_min or y_max <= y_min", BOXED),
        ("y_max = y_min is taken", "x_max <= x_min or y_max < y_min", BOXED),
        ("NaN in x is refused", "not x_max > x_min or y_max <= y_min", BOXED),
        ("NaN in y is refused", "x_max <= x_min or not y_max > y_min", BOXED))
instead("4", "boxes.py", "is_bad(box1) or is_bad(box2)",
        ("the first box is not tested", "is_bad(box2)", "iou_distance"),
        ("the second box is not tested", "is_bad(box1)", "iou_distance"))
instead("4", "boxes.py", "any_bad(truth) or any_bad(predicted)",
        ("truth boxes are not tested", "any_bad(predicted)", "compute_iou_distance_matrix"),
        ("predicted boxes are not tested", "any_bad(truth)", "compute_iou_distance_matrix"))
wrong("4", "boxes.py",
      ("a box beside an empty side is refused too", "refuses_boxes and rows and columns", "refuses_boxes",
       "compute_iou_distance_matrix"),
      ("the first box of a side alone is tested", "map(is_bad, boxes_in(run))", "map(is_bad, boxes_in(run)[:1])",
       "compute_iou_distance_matrix extended"),
      ("iou_matrix refuses boxes too", "_matrix(share, False)", "_matrix(share, True)", "iou_matrix"))
instead("4", "extended.py", "truth and predicted and (any_bad(truth_boxes) or any_bad(predicted_boxes))",
        ("truth boxes are not tested", "truth and predicted and any_bad(predicted_boxes)", "extended"),
        ("predicted boxes are not tested", "truth and predicted and any_bad(truth_boxes)", "extended"),
        ("a box beside an empty side is refused too", "any_bad(truth_boxes) or any_bad(predicted_boxes)", "extended"))
wrong("4", "metrics.py",
      ("module 4 refuses boxes too", "    shares = entries", "    import boxes\n    if truth and hypotheses and "
       "(boxes.any_bad(truth_boxes) or boxes.any_bad(hypothesis_boxes)):\n        return 4, state\n    shares = entries", "metrics"))

# full tables and logs, short outputs
for name, table, most, old in (("extended", "slots", "MOST_SLOTS", "if after.slots.is_over()"),
                               ("mot", "last_match", "MOST_MATCHES", "if after.last_match.is_over()"),
                               ("metrics", "truths", "MOST_TRUTHS", "if after.truths.is_over()"),
                               ("metrics", "hypotheses", "MOST_HYPOTHESES", "after.hypotheses.is_over()")):
    head = "if " if old.startswith("if") else ""
    instead("5", name + ".py", old,
            ("a table grows over its capacity: " + table, head + "False", name),
            ("the last place of a table can't be taken: " + table, head + "after.%s.used >= %s > state.%s.used" % (table, most, table), name),
            ("a full table takes no frame at all: " + table, head + "(after.%s.is_over() or state.%s.used == %s)" % (table, table, most), name))
ALL_NEW = "len([x for x in %s if x not in [%s]])"
wrong("5", "extended.py",
      ("an id that comes twice counts twice: slots", "if after.slots.is_over()",
       "if state.slots.used + %s > MOST_SLOTS" % (ALL_NEW % ("truth", "s.life.gt_id for s in state.slots.in_use()")), "extended"))
wrong("5", "mot.py",
      ("truth ids that are missed count too: last_match", "if after.last_match.is_over()",
       "if state.last_match.used + %s > MOST_MATCHES" % (ALL_NEW % ("set(truth)", "t for t, _ in state.last_match.in_use()")),
       "mot"))
wrong("5", "metrics.py",
      ("an id that comes twice counts twice: truths", "if after.truths.is_over()",
       "if state.truths.used + %s > MOST_TRUTHS" % (ALL_NEW % ("truth", "s.gt_id for s in state.truths.in_use()")), "metrics"),
      ("an id that comes twice counts twice: hypotheses", "after.hypotheses.is_over()",
       "state.hypotheses.used + %s > MOST_HYPOTHESES" % (ALL_NEW % ("hypotheses", "x for x in state.hypotheses.in_use()")),
       "metrics"))
for name in ("mot", "metrics"):
    instead("6", name + ".py", "if after.log.is_over()",
            ("the log grows over its capacity", "if False", name),
            ("the log's last place can't be taken", "if after.log.used >= after.log.most > state.log.used", name),
            ("a full log takes no frame at all", "if after.log.is_over() or state.log.used == state.log.most", name),
            ("every row and column has an event", "if state.log.used + len(truth) + len(%s) > after.log.most"
             % ("predicted" if name == "mot" else "hypotheses"), name))
instead("6", "boxes.py", "rows * columns > room",
        ("a short output grows", "False", MATRICES), ("an output that just fits is refused", "rows * columns >= room > 0", MATRICES))

# counters
for k, name in enumerate(COUNTERS):
    wrong("7", "extended.py", ("%s may pass the limit" % name, "max(state.counters()) > LARGEST_INT",
                               "max(x for k, x in enumerate(state.counters()) if k != %d) > LARGEST_INT" % k, "extended"),
          ("%s may not reach the limit" % name, "max(state.counters()) > LARGEST_INT",
           "max(x + (k == %d) for k, x in enumerate(state.counters())) > LARGEST_INT" % k, "extended"))
for name in COUNTS:
    calls = "update_matched extended" + (" update_missed" if name == "detected_frames" else "")
    wrong("7", "lifecycles.py", ("%s may pass the limit" % name, "life.%s > LARGEST_INT" % name, "False", calls),
          ("%s may not reach the limit" % name, "life.%s > LARGEST_INT" % name, "life.%s >= LARGEST_INT" % name, calls))
instead("7", "extended.py", "if fragmentations > LARGEST_INT",
        ("the summed fragmentations may pass the limit", "if False", "extended"),
        ("the summed fragmentations may not reach the limit", "if fragmentations >= LARGEST_INT", "extended"))


def in_wrong_order(name, head, tests):
    """For each two numbers of a call: where both apply, the higher is given."""
    for low in tests:
        for high in tests:
            if low < high:
                where, returned = head
                wrong("lowest", name + ".py", (
                    "%d is given where %d applies too" % (high, low), where,
                    "    if (%s) and (%s):\n        return %s\n%s" % (tests[low], tests[high], returned % high, where),
                    MATRICES if name == "boxes" and 4 not in (low, high) else "compute_iou_distance_matrix" if name == "boxes"
                    else "linear_sum_assignment" if name == "search" else name))


wrong("lowest", "lifecycles.py",
      ("7 is given where 1 applies too", "UNSOUND if not is_sound(life) else PASSED if has_passed(after) else DONE",
       "PASSED if has_passed(after) else UNSOUND if not is_sound(life) else DONE", "update_matched update_missed"))
in_wrong_order("boxes", ("    if rows > MOST_BOXES or", "%d"),
               {2: OVER, 3: "len(truth) % 4 or len(predicted) % 4",
                4: "refuses_boxes and rows and columns and (any_bad(truth) or any_bad(predicted))", 6: "rows * columns > room"})
in_wrong_order("search", ("    if rows > MOST or", "%d"),
               {2: "rows > MOST or columns > MOST", 3: "rows == 0 and columns > 0 or len(cost) != rows * columns"})
FIRST = "    if not is_sound(state):\n        return UNSOUND, state", "%d, state"
SIDES = "(truth, truth_boxes), (%s, %s)"
TOO_MANY = "any(len(i) > 64 or len(b) // 4 > 64 for i, b in (%s))" % SIDES
SHAPE = "any(len(b) != 4 * len(i) for i, b in (%s))" % SIDES
in_wrong_order("extended", FIRST,
               {1: "not is_sound(state)", 2: TOO_MANY % ("predicted", "predicted_boxes"),
                3: SHAPE % ("predicted", "predicted_boxes"),
                4: "truth and predicted and (any_bad(truth_boxes) or any_bad(predicted_boxes))",
                5: "len(set(ids_of(state.slots)) | set(truth)) > MOST_SLOTS",
                7: "max(*state.counters()[1:5], state.frame_id + 1, state.objects + len(truth)) > LARGEST_INT"})
in_wrong_order("mot", FIRST,
               {1: "not is_sound(state)", 2: "len(truth) > 64 or len(predicted) > 64",
                3: "len(distances) != len(truth) * len(predicted)",
                5: "predicted and len({t for t, _ in state.last_match.in_use()} | set(truth[:len(predicted)])) > MOST_MATCHES",
                6: "state.log.used + max(len(truth), len(predicted)) > state.log.most"})
in_wrong_order("metrics", FIRST,
               {1: "not is_sound(state)", 2: TOO_MANY % ("hypotheses", "hypothesis_boxes"),
                3: SHAPE % ("hypotheses", "hypothesis_boxes"),
                5: "len({s.gt_id for s in state.truths.in_use()} | set(truth)) > MOST_TRUTHS "
                   "or len(set(state.hypotheses.in_use()) | set(hypotheses)) > MOST_HYPOTHESES",
                6: "state.log.used + max(len(truth), len(hypotheses)) > state.log.most"})

# what stands beside a refusal
wrong("beside", "lifecycles.py", ("a refused record is changed", "life if number else after", "after", "update_matched update_missed"))
wrong("beside", "boxes.py",
      ("a refused distance has a value", 'return "%d %s" % (BAD_BOX, float_word(0.0))',
       'return "%d %s" % (BAD_BOX, float_word(1.0))', "iou_distance"),
      ("a short output is filled as far as it goes", "if number == DONE:\n            written = list(map(computed, entries(entry, truth, predicted)))",
       "if number in (DONE, SHORT):\n            written = list(map(computed, entries(entry, truth, predicted)))[:len(lent)]", MATRICES),
      ("an output beside bad boxes is written", "if number == DONE:", "if number in (DONE, BAD_BOX) and len(lent) >= len(truth) * len(predicted) // 16:",
       "compute_iou_distance_matrix"))
wrong("beside", "search.py",
      ("a refused matrix lists its rows", 'return "%d 0 0 0 0 0" % refused',
       'return "%d 0 %s 0 0 0" % (refused, whole_run_words(range(min(rows, 65))))', "linear_sum_assignment"))
wrong("beside", "extended.py",
      ("a refused frame still counts", "        return BAD_BOX, state", "        return BAD_BOX, state._replace(frame_id=state.frame_id + 1)",
       "extended"),
      ("refusal 5 leaves the booked frame", "return FULL, state", "return FULL, after", "extended"),
      ("refusal 7 leaves the booked frame", "return PASSED, state", "return PASSED, after", "extended"),
      ("a refused sum of fragmentations has classes", "return PASSED, 0, 0, 0, 0", "return PASSED, len(lives), 0, 0, 0", "extended"))
for name in ("mot", "metrics"):
    wrong("beside", name + ".py", ("refusal 5 leaves the booked frame", "return FULL, state", "return FULL, after", name),
          ("refusal 6 leaves the booked frame", "return LOG_FULL, state", "return LOG_FULL, after", name))
