"""Module 1 of document 01: boxes, their distance, and the two matrices."""

from floats import maximum, minimum
from words import computed, float_word, kept, run_words

MOST_BOXES = 64

# 01's numbers
DONE, TOO_MANY, SHAPE, BAD_BOX, SHORT = 0, 2, 3, 4, 6


def is_bad(box):
    x_min, y_min, x_max, y_max = box
    return x_max <= x_min or y_max <= y_min


def area(box):
    x_min, y_min, x_max, y_max = box
    return (x_max - x_min) * (y_max - y_min)


def overlap(box1, box2):
    """The rectangle that two boxes share; its sides may run backwards."""
    return (maximum(box1[0], box2[0]), maximum(box1[1], box2[1]),
            minimum(box1[2], box2[2]), minimum(box1[3], box2[3]))


def distance(box1, box2):
    x_min, y_min, x_max, y_max = overlap(box1, box2)
    if x_max < x_min or y_max < y_min:
        intersection = 0.0
    else:
        intersection = (x_max - x_min) * (y_max - y_min)
    union = (area(box1) + area(box2)) - intersection
    if union == 0.0:
        return 1.0
    return 1.0 - intersection / union


def share(box1, box2):
    x_min, y_min, x_max, y_max = overlap(box1, box2)
    # 01 says only 'sides': as settled, the shared rectangle's are clamped and the areas are not
    intersection = maximum(x_max - x_min, 0.0) * maximum(y_max - y_min, 0.0)
    union = (area(box1) + area(box2)) - intersection
    if union > 0.0:
        return intersection / union
    return 0.0


def _matrix_number(truth, predicted, room, refuses_boxes):
    """01's number, the lowest that applies."""
    rows, columns = len(truth) // 4, len(predicted) // 4
    if rows > MOST_BOXES or columns > MOST_BOXES:
        return TOO_MANY
    if len(truth) % 4 or len(predicted) % 4:
        return SHAPE
    if refuses_boxes and rows and columns:
        if any_bad(truth) or any_bad(predicted):
            return BAD_BOX
    if rows * columns > room:
        return SHORT
    return DONE


def boxes_in(run):
    return [run[i:i + 4] for i in range(0, len(run) - 3, 4)]


def any_bad(run):
    return any(map(is_bad, boxes_in(run)))


def entries(entry, truth, predicted):
    """The entries of a matrix, row by row."""
    columns = boxes_in(predicted)
    return [entry(t, p) for t in boxes_in(truth) for p in columns]


def _matrix(entry, refuses_boxes):
    def answer(request):
        truth, predicted, lent = request.run(), request.run(), request.run()
        request.end()
        number = _matrix_number(truth, predicted, len(lent), refuses_boxes)
        after = [kept(x) for x in lent]
        if number == DONE:
            written = list(map(computed, entries(entry, truth, predicted)))
            after[:len(written)] = written
        return "%d %s" % (number, run_words(after))
    return answer


def _distance(request):
    box1, box2 = request.floats(4), request.floats(4)
    request.end()
    if is_bad(box1) or is_bad(box2):
        return "%d %s" % (BAD_BOX, float_word(0.0))
    return "%d %s" % (DONE, float_word(computed(distance(box1, box2))))


def _share(request):
    box1, box2 = request.floats(4), request.floats(4)
    request.end()
    return float_word(computed(share(box1, box2)))


ANSWERS = {
    "iou_distance": _distance,
    "iou_share": _share,
    "compute_iou_distance_matrix": _matrix(distance, True),
    "iou_matrix": _matrix(share, False),
}
