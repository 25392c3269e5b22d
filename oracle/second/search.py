"""Module 2 of document 01: the assignment search, steps A to G, with both counts."""

from floats import INFINITY, is_finite
from words import whole_run_words

MOST = 64
NONE = -1

# 01's numbers
DONE, TOO_MANY, SHAPE = 0, 2, 3


def padded(cost, rows, columns):
    """Step A."""
    n = max(rows, columns)
    square = [list(cost[i * columns:(i + 1) * columns]) + [0.0] * (n - columns) for i in range(rows)]
    return square + [[0.0] * n for _ in range(n - rows)]


def least(entries):
    """The minimum, NaN passed over: no comparison with NaN holds."""
    m = INFINITY
    for x in entries:
        if x < m:
            m = x
    return m


def reduced(square):
    """Step B: the rows, then the columns as the rows left them."""
    def less_minimum(line):
        m = least(line)
        return [x - m for x in line] if is_finite(m) else line
    square = [less_minimum(row) for row in square]
    columns = [less_minimum(column) for column in zip(*square)]
    return [list(row) for row in zip(*columns)]


class Search:
    """The square and the partners, which path changes and corrections change."""

    def __init__(self, square):
        self.square = square
        self.n = len(square)
        self.of_row = [NONE] * self.n
        self.of_column = [NONE] * self.n
        self.corrections = self.paths = 0
        self.find_zeros()

    def find_zeros(self):
        """The columns of each row's zeros, in order."""
        self.zeros = [[j for j, x in enumerate(row) if abs(x) < 1e-10] for row in self.square]

    def free_rows(self):
        return [i for i, partner in enumerate(self.of_row) if partner == NONE]

    def first_pass(self):
        """Step C."""
        for row in range(self.n):
            for column in self.zeros[row]:
                if self.of_column[column] == NONE:
                    self.of_row[row], self.of_column[column] = column, row
                    break

    def to_stop(self):
        """Steps D to G."""
        while NONE in self.of_row:
            if not any(self.path_from(row) for row in self.free_rows()) and not self.corrected():
                return

    def path_from(self, start):
        """Step E from one free row: whether a free column was met and the path flipped."""
        came_from = [NONE] * self.n
        queue = [start]
        for row in queue:
            for column in self.zeros[row]:
                if came_from[column] != NONE:
                    continue
                came_from[column] = row
                if self.of_column[column] == NONE:
                    self.flip(came_from, column)
                    return True
                queue.append(self.of_column[column])
        return False

    def flip(self, came_from, column):
        while column != NONE:
            row = came_from[column]
            before = self.of_row[row]
            self.of_row[row], self.of_column[column] = column, row
            column = before
        self.paths += 1

    def corrected(self):
        """Steps F and G: whether a correction was made; without one the search stops."""
        rows = self.free_rows()
        reached_rows, reached_columns = set(rows), set()
        for row in rows:
            for column in self.zeros[row]:
                if column not in reached_columns:
                    reached_columns.add(column)
                    partner = self.of_column[column]
                    if partner not in reached_rows:
                        reached_rows.add(partner)
                        rows.append(partner)
        outside = [j for j in range(self.n) if j not in reached_columns]
        m = least([self.square[row][j] for row in reached_rows for j in outside])
        if not is_finite(m) or m <= 0.0:
            return False
        for i, entries in enumerate(self.square):
            if i in reached_rows:
                for j in outside:
                    entries[j] -= m
            else:
                for j in reached_columns:
                    entries[j] += m
        self.find_zeros()
        self.corrections += 1
        return True


def number(cost, rows, columns):
    """01's number, the lowest that applies."""
    if rows > MOST or columns > MOST:
        return TOO_MANY
    if rows == 0 and columns > 0 or len(cost) != rows * columns:
        return SHAPE
    return DONE


def assignment(cost, rows, columns, max_cost):
    """The pairs, the unmatched rows and columns, the corrections and the path changes."""
    if rows == 0 or columns == 0:
        return [], list(range(rows)), [], 0, 0
    search = Search(reduced(padded(cost, rows, columns)))
    search.first_pass()
    search.to_stop()
    # padded partners fall out here; NaN passes no comparison
    pairs = [(i, j) for i, j in enumerate(search.of_row[:rows])
             if 0 <= j < columns and cost[i * columns + j] <= max_cost]
    taken_rows, taken_columns = {i for i, _ in pairs}, {j for _, j in pairs}
    return (pairs, [i for i in range(rows) if i not in taken_rows],
            [j for j in range(columns) if j not in taken_columns], search.corrections, search.paths)


def _answer(request):
    rows, columns, cost, max_cost = request.whole(), request.whole(), request.run(), request.floats(1)[0]
    request.end()
    refused = number(cost, rows, columns)
    if refused:
        return "%d 0 0 0 0 0" % refused
    pairs, free_rows, free_columns, corrections, paths = assignment(cost, rows, columns, max_cost)
    said = [str(len(pairs)), *("%d %d" % pair for pair in pairs)]
    return " ".join([str(DONE), *said, whole_run_words(free_rows), whole_run_words(free_columns),
                     str(corrections), str(paths)])


ANSWERS = {"linear_sum_assignment": _answer}
