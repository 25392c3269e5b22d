"""Module 3 of document 01: the lifecycle of a truth id."""

from typing import NamedTuple

from words import LARGEST_INT, computed, float_word

# 01's numbers
DONE, UNSOUND, PASSED = 0, 1, 7

MOSTLY_TRACKED, MOSTLY_LOST, PARTIALLY_TRACKED = "tracked", "lost", "partly"


class Lifecycle(NamedTuple):
    gt_id: int
    first_frame: int
    last_frame: int
    tracked_frames: int = 0
    detected_frames: int = 0
    fragmentations: int = 0
    was_matched: int = 0


def new(gt_id, frame):
    # 01 doesn't say what a new one's last frame is
    return Lifecycle(gt_id, frame, frame)


def matched(life, frame):
    detected = life.detected_frames + 1
    interrupted = detected > 1 and not life.was_matched
    return Lifecycle(life.gt_id, life.first_frame, frame, life.tracked_frames + 1, detected,
                     life.fragmentations + interrupted, 1)


def missed(life, frame):
    return Lifecycle(life.gt_id, life.first_frame, frame, life.tracked_frames, life.detected_frames + 1,
                     life.fragmentations, 0)


def is_sound(life):
    return life.tracked_frames >= 0 and life.detected_frames >= 0 and life.fragmentations >= 0


def has_passed(life):
    """Whether a count is over what it may be: counts are taken without a bound first."""
    return (life.tracked_frames > LARGEST_INT or life.detected_frames > LARGEST_INT
            or life.fragmentations > LARGEST_INT)


def coverage(life):
    return life.tracked_frames / life.detected_frames if life.detected_frames else 0.0


def class_of(life):
    share = coverage(life)
    if share >= 0.8:
        return MOSTLY_TRACKED
    return MOSTLY_LOST if share < 0.2 else PARTIALLY_TRACKED


def read_lifecycle(request):
    int_ = request.int
    return Lifecycle(int_(), int_(), int_(), int_(), int_(), int_(), int_(0, 1))


def lifecycle_words(life):
    return "%d %d %d %d %d %d %d" % life


def _new(request):
    gt_id, frame = request.int(), request.int()
    request.end()
    return lifecycle_words(new(gt_id, frame))


def _update(rule):
    def answer(request):
        life, frame = read_lifecycle(request), request.int()
        request.end()
        after = rule(life, frame)
        number = UNSOUND if not is_sound(life) else PASSED if has_passed(after) else DONE
        return "%d %s" % (number, lifecycle_words(life if number else after))
    return answer


def _coverage(request):
    life = read_lifecycle(request)
    request.end()
    if not is_sound(life):
        return "%d %s" % (UNSOUND, float_word(0.0))
    return "%d %s" % (DONE, float_word(computed(coverage(life))))


ANSWERS = {
    "lifecycle_new": _new,
    "update_matched": _update(matched),
    "update_missed": _update(missed),
    "coverage": _coverage,
}
