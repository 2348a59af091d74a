"""Settles golf shots and ranks them, through the shared object that `make` builds. Needs Python's standard library alone.

    course = Course([GREEN])
    run = settle(course, Landing(vel=(6.0, -4.0, 0.0)))
    board = Board(pin=(3.0, 0.0)); board.enter(1, run)
    shelf = Shelf(); shelf.save("LIE", run.rest); shelf.return_to("LIE")
    listen([0.0, 0.41], run, 0.02).pairs

A number of documents 01 and 02 other than 0 is raised as `Refused`, which says in words what is wrong; a run that was stopped (20 to 23) is raised
as `Stopped`, with what it had got to in its `run`. What cannot be handed to the library at all is a plain `ValueError` (`Refused` is one
too): an unknown kind or law, a surface number, max_impacts, step_limit or shot number that is no whole number in the range of its type, a
field that is no number, and a run to enter whose answer is not 0.
"""
import contextlib
import ctypes
import os
import struct
import sys
import threading
import time
from collections import namedtuple

HERE = os.path.dirname(os.path.abspath(__file__))
LIBRARY = os.path.join(HERE, "..", "target", "libdimple.so")

WORDS = {
    1: "the course's header or length is wrong",
    2: "a surface has a field out of range",
    3: "a patch has a field out of range, its edges exchanged, or names no surface",
    4: "a setting of the physics or the step limit is out of range",
    5: "a number of the ball is out of range (a mass from 0.001 to 1 kg, for one)",
    6: "the air density is not from 0 to 10",
    7: "the landing's time, position, velocity or spin is out of range",
    8: "a list is not lent in whole records",
    9: "the pin is beyond 100,000 m",
    10: "the spot is beyond 1,000,000 m, or no number",
    11: "x or z is beyond 1,000,000 m, or no number",
    12: "the input is shorter than 240 or longer than 34,048 bytes",
    20: "the list of contacts is full",
    21: "the list of points is full",
    22: "the ball left the range of 1,000,000, or a number overflowed",
    23: "the step limit was reached",
    24: "this bay has used its 32 entries",
    25: "the shot number is on the board already",
    26: "there is no entry at that place",
    30: "the page is too short for the card",
    31: "the bay is above 7",
    32: "a name is 1 to 12 letters from A to Z",
    33: "the shelf holds 16 names",
    34: "there is no such name on the shelf",
    35: "a side of the grid is not from 1 to 32, the distance not from 0 to 10 m, or the spot beyond 100,000 m",
    39: "a heard or contact time is no number from 0 to 1,000,000 s or is lower than the one before, or more than 256 were heard",
    40: "the tolerance is not from 0 to 0.1 s",
    41: "the list of marks is shorter than heard times and contacts together",
    100: "a buffer has the wrong length",
    101: "the buffer holds no board, or no shelf",
    102: "the termination is none of rest, time and impacts",
}


class Refused(ValueError):
    """What was handed in, or asked for, is refused. `number` is the number, the text says what is wrong."""

    def __init__(self, number):
        super().__init__(f"{number}: {WORDS.get(number, 'unknown')}")
        self.number = number


class Stopped(Refused):
    """The run was stopped by 20 to 23. `run` holds what it had got to."""

    def __init__(self, number, run):
        super().__init__(number)
        self.run = run


# kind "constant" with e, or "penner"; law "constant", "quadratic" or "exponential" with v_ref
Surface = namedtuple("Surface", "mu_slide mu_roll kind e law v_ref compliance pivot", defaults=("penner", 0.0, "quadratic", 2.5, 1.0, 0.001))
Patch = namedtuple("Patch", "x_lo x_hi z_lo z_hi h0 a b surface", defaults=(0.0, 0.0, 0.0, 0))
Physics = namedtuple("Physics", "dt stop_speed roll_threshold min_hop_height max_time max_impacts", defaults=(0.001, 0.01, 0.01, 0.005, 120.0, 64))
Ball = namedtuple("Ball", "mass_kg diameter_m inertia_factor cd_sub cd_super cd_spin sr_sat cl_sub cl_super sr_scale re_crit re_width")
Landing = namedtuple("Landing", "time pos vel spin", defaults=(0.0, (0.0, 0.0, 0.0), (0.0, 0.0, 0.0), (0.0, 0.0, 0.0)))
State = namedtuple("State", "time pos vel spin")
Contact = namedtuple("Contact", "time pos normal surface vel_in vel_out spin_in spin_out")
Point = namedtuple("Point", "time pos vel spin phase clearance")
Rectangle = namedtuple("Rectangle", "x_lo x_hi z_lo z_hi")
# evaluations: those of all root searches of the run, in hops and in slides
Run = namedtuple("Run", "answer termination steps rest rectangle contacts points evaluations")
Listened = namedtuple("Listened", "pairs heard_only computed_only")

GREEN = Surface(0.40, 0.055)
FAIRWAY = Surface(0.40, 0.12)
TOUR = Ball(0.04593, 0.04267, 0.4, 0.295, 0.186, 0.85, 0.25, 0.203, 0.324, 0.115, 69600.0, 106.0)

KINDS = {"constant": 0, "penner": 1}
LAWS = {"constant": 0, "quadratic": 1, "exponential": 2}
TERMINATIONS = ("none", "rest", "time", "impacts")
PHASES = ("hop", "slide", "roll")


def _named(names, name, what):
    if name not in names:
        raise ValueError(f"{what} {name!r} is none of {', '.join(names)}")
    return names[name]


def _whole(n, bits, what):
    if not isinstance(n, int) or not 0 <= n < 2 ** bits:
        raise ValueError(f"{what} {n!r} is no whole number from 0 to 2^{bits} - 1")
    return n


def _pack(form, *fields):
    try:
        return struct.pack(form, *fields)
    except (struct.error, OverflowError) as problem:
        raise ValueError(f"a field is missing, or is no number that a double holds: {problem}") from None


class Course:
    """A course sheet: its surfaces, and the patches, of which the first listed that holds a spot counts there."""

    def __init__(self, surfaces, patches=()):
        sheet = struct.pack("<4I", len(surfaces), 16, len(patches), 16 + 64 * len(surfaces))
        for s in surfaces:
            kind, law = _named(KINDS, s.kind, "the kind"), _named(LAWS, s.law, "the law")
            sheet += _pack("<Q3dQ3d", kind, s.e, s.mu_slide, s.mu_roll, law, s.v_ref, s.compliance, s.pivot)
        for p in patches:
            sheet += _pack("<7dQ", *p[:7], _whole(p[7], 64, "the surface number"))
        self.sheet = sheet


def _library():
    lib = ctypes.CDLL(LIBRARY)
    doubles, size = ctypes.POINTER(ctypes.c_double), ctypes.c_size_t
    lib.dimple_settle.argtypes = [ctypes.c_char_p, size, doubles, size, doubles, size, doubles, size]
    lib.dimple_settle_fading.argtypes = lib.dimple_settle.argtypes
    lib.dimple_card.argtypes = lib.dimple_settle.argtypes + [ctypes.c_char_p, size]
    lib.dimple_aim.argtypes = [ctypes.c_char_p, size, doubles, size, doubles, size, ctypes.c_double, ctypes.c_double, ctypes.c_double,
                               ctypes.c_uint64, ctypes.c_uint64, doubles, size, doubles, size]
    lib.dimple_listen.argtypes = [doubles, size, doubles, size, ctypes.c_uint64, ctypes.c_double, ctypes.c_char_p, size, doubles, size]
    lib.dimple_step.argtypes = [ctypes.c_char_p, size, doubles, size, doubles, size, doubles, size]
    lib.dimple_impact.argtypes = [ctypes.c_char_p, size, doubles, size, doubles, size]
    lib.dimple_height.argtypes = [ctypes.c_char_p, size, ctypes.c_double, ctypes.c_double, doubles, size]
    lib.dimple_board_new.argtypes = [ctypes.c_double, ctypes.c_double, doubles, size]
    lib.dimple_board_enter.argtypes = [doubles, size, *[ctypes.c_uint32] * 4, ctypes.c_double, ctypes.c_double]
    lib.dimple_board_place.argtypes = [doubles, size, ctypes.c_uint64, doubles, size]
    lib.dimple_shelf_new.argtypes = [doubles, size]
    lib.dimple_shelf_save.argtypes = [doubles, size, ctypes.c_char_p, size, doubles, size]
    lib.dimple_shelf_return.argtypes = [doubles, size, ctypes.c_char_p, size, doubles, size]
    lib.dimple_shelf_drop.argtypes = [doubles, size, ctypes.c_char_p, size]
    for door in ("settle", "settle_fading", "card", "aim", "listen", "step", "impact", "height", "board_new", "board_enter", "board_place",
                 "shelf_new", "shelf_save", "shelf_return", "shelf_drop"):
        getattr(lib, f"dimple_{door}").restype = ctypes.c_uint32
    return lib


_lib = None


def _call(name, *args):
    global _lib
    if _lib is None:
        _lib = _library()
    return getattr(_lib, name)(*args)


def _doubles(n, *fields):
    if fields and len(fields) != n:
        raise ValueError(f"{len(fields)} fields, and not {n}")
    try:
        return (ctypes.c_double * n)(*fields)
    except (TypeError, OverflowError) as problem:
        raise ValueError(f"a field is no number that a double holds: {problem}") from None


def settle_input(course, landing, physics=Physics(), ball=TOUR, air_density=1.225, step_limit=1_000_000):
    """The bytes that the program `settle` reads for this shot."""
    p = physics
    most, limit = _whole(p.max_impacts, 64, "max_impacts"), _whole(step_limit, 64, "step_limit")
    head = _pack("<5d2Q", p.dt, p.stop_speed, p.roll_threshold, p.min_hop_height, p.max_time, most, limit)
    body = _pack("<23d", *ball, air_density, landing.time, *landing.pos, *landing.vel, *landing.spin)
    return head + body + course.sheet


def settle(course, landing, physics=Physics(), ball=TOUR, air_density=1.225, step_limit=1_000_000, contacts=256, points=16384, fading=False):
    """The run of a landing to its end, as a `Run`. With fading=True the spin fades in the air, by exp(-0.04 h) in a hop step of h seconds."""
    data = settle_input(course, landing, physics, ball, air_density, step_limit)
    lc, lp, result = _doubles(20 * contacts), _doubles(12 * points), _doubles(20)
    answer = _call("dimple_settle_fading" if fading else "dimple_settle", data, len(data), lc, len(lc), lp, len(lp), result, len(result))
    return _run(answer, lc, lp, result)


def _run(answer, lc, lp, result):
    if 0 < answer < 20 or answer == 30:
        raise Refused(answer)
    r = list(result)
    nc, np = int(r[2]), int(r[3])
    run = Run(answer, TERMINATIONS[int(r[1])], int(r[4]), _state(r[5:15]), Rectangle(*r[15:19]),
              [_contact(lc[20 * i:20 * i + 20]) for i in range(nc)], [_point(lp[12 * i:12 * i + 12]) for i in range(np)], int(r[19]))
    if answer:
        raise Stopped(answer, run)
    return run


def card(course, landing, physics=Physics(), ball=TOUR, air_density=1.225, step_limit=1_000_000, contacts=256, points=16384):
    """The run of a landing to its end, printed: a heading, then a line of 60 bytes for each contact, with its number, time in milliseconds and x, y, z
    in centimetres."""
    data = settle_input(course, landing, physics, ball, air_density, step_limit)
    lc, lp, result = _doubles(20 * contacts), _doubles(12 * points), _doubles(20)
    page = ctypes.create_string_buffer(60 * (1 + contacts))
    answer = _call("dimple_card", data, len(data), lc, len(lc), lp, len(lp), result, len(result), page, len(page))
    run = _run(answer, lc, lp, result)
    return page.raw[:60 * (1 + len(run.contacts))].decode("ascii")


def aim(course, spot, distance, landing=Landing(), forward=32, downward=32, physics=Physics(), ball=TOUR, air_density=1.225,
        step_limit=1_000_000, contacts=256, points=16384, progress=False):
    """The first landing, by forward and then by downward speed in whole metres a second from 1 on, whose run ends at rest within the distance of the
    spot (x, z), as a pair of that `Landing` and its `Run`; None if no landing of the grid does. All but the velocity is as in `landing`. A large grid
    takes seconds: with progress=True a line on standard error says how long it has been at it."""
    data = settle_input(course, landing, physics, ball, air_density, step_limit)
    sides = _whole(forward, 64, "forward"), _whole(downward, 64, "downward")
    lc, lp, result, found = _doubles(20 * contacts), _doubles(12 * points), _doubles(20), _doubles(10)
    with _progress(f"aiming, at most {forward * downward} landings") if progress else contextlib.nullcontext():
        answer = _call("dimple_aim", data, len(data), lc, len(lc), lp, len(lp), *_doubles(3, *spot, distance), *sides, result, len(result), found, 10)
    if answer:
        raise Refused(answer)
    if not any(found[4:7]):
        return None
    return Landing(*_state(found[:10])), _run(answer, lc, lp, result)


def listen(heard, run, tolerance):
    """Holds the times that a bay's microphones heard against the run's contact times, in seconds, both in order. Both lists are walked from the front:
    fronts no further apart than the tolerance (0 to 0.1 s) are a pair, else the earlier is left alone. Gives three lists of places, counted from 0: `pairs`
    of a place in `heard` and one in `run.contacts`, the places of the times `heard_only`, and those of the contacts `computed_only`."""
    times, contacts = list(heard), [_contact_fields(c) for c in run.contacts]
    h, c, totals = _doubles(len(times), *times), _doubles(20 * len(contacts), *(x for f in contacts for x in f)), _doubles(3)
    marks = ctypes.create_string_buffer(len(times) + len(contacts))
    _accept(_call("dimple_listen", h, len(h), c, len(c), len(contacts), *_doubles(1, tolerance), marks, len(marks), totals, 3))
    of_heard, of_contacts = marks.raw[:len(times)], marks.raw[len(times):]

    def places(of, mark):
        return [i for i, m in enumerate(of) if m == mark]

    return Listened(list(zip(places(of_heard, 0), places(of_contacts, 0))), places(of_heard, 1), places(of_contacts, 2))


@contextlib.contextmanager
def _progress(what):
    """While the call runs, a line with the seconds so far, on standard error."""
    done, start = threading.Event(), time.monotonic()

    def tell():
        while not done.wait(0.5):
            print(f"\r{what}: {time.monotonic() - start:.0f} s", end="", file=sys.stderr, flush=True)
        print(f"\r{what}: {time.monotonic() - start:.1f} s", file=sys.stderr, flush=True)

    teller = threading.Thread(target=tell, daemon=True)
    teller.start()
    try:
        yield
    finally:
        done.set()
        teller.join()


def _state(d):
    return State(d[0], tuple(d[1:4]), tuple(d[4:7]), tuple(d[7:10]))


def _contact(d):
    return Contact(d[0], tuple(d[1:4]), tuple(d[4:7]), int(d[7]), *(tuple(d[i:i + 3]) for i in (8, 11, 14, 17)))


def _contact_fields(c):
    return (c.time, *c.pos, *c.normal, c.surface, *c.vel_in, *c.vel_out, *c.spin_in, *c.spin_out)


def _point(d):
    return Point(*_state(d), PHASES[int(d[10])], d[11])


def step(course, state, physics=Physics(), ball=TOUR):
    """One ground step: the state after it, and its phase."""
    p, b = _doubles(3, physics.dt, physics.stop_speed, physics.roll_threshold), _doubles(12, *ball)
    s = _doubles(11, state.time, *state.pos, *state.vel, *state.spin, 0.0)
    answer = _call("dimple_step", course.sheet, len(course.sheet), p, 3, b, 12, s, 11)
    if answer:
        raise Refused(answer)
    return _state(s[:10]), PHASES[int(s[10])]


def impact(course, state, ball=TOUR):
    """The state after an impact on the ground under it."""
    b, s = _doubles(12, *ball), _doubles(10, state.time, *state.pos, *state.vel, *state.spin)
    answer = _call("dimple_impact", course.sheet, len(course.sheet), b, 12, s, 10)
    if answer:
        raise Refused(answer)
    return _state(s[:10])


def height(course, x, z):
    """The course's height at a spot."""
    out = _doubles(1)
    answer = _call("dimple_height", course.sheet, len(course.sheet), x, z, out, 1)
    if answer:
        raise Refused(answer)
    return out[0]


def on_published_ground(run, rectangle):
    """Whether the run stayed within a published rectangle. Then its result gives away nothing of the ground outside: two courses that agree
    within the rectangle that a run reports give the same result (`demand-3` in crates/promises/specs/Demand.antt), and the reported one
    holds every spot that was looked at."""
    r, q = run.rectangle, Rectangle(*rectangle)
    return q.x_lo <= r.x_lo and r.x_hi <= q.x_hi and q.z_lo <= r.z_lo and r.z_hi <= q.z_hi


class Board:
    """Up to 32 shots of each of 8 bays: those at rest before those still moving, then least distance from the pin first, equal distances by
    fewer contacts, then by the lower shot number."""

    LENGTH = 1539

    def __init__(self, pin):
        self._buffer = _doubles(self.LENGTH)
        self._check(_call("dimple_board_new", pin[0], pin[1], self._buffer, self.LENGTH))

    @staticmethod
    def _check(answer):
        if answer:
            raise Refused(answer)

    def enter(self, shot, run, bay=0):
        """Enters a run with answer 0 under a shot number from 0 to 2^32 - 1, for a bay from 0 to 7."""
        if run.answer != 0:
            raise ValueError(f"a run with answer {run.answer} is not to be entered")
        x, _, z = run.rest.pos
        number, ended = _whole(shot, 32, "the shot number"), TERMINATIONS.index(run.termination)
        self._check(_call("dimple_board_enter", self._buffer, self.LENGTH, _whole(bay, 32, "the bay"), number, ended, len(run.contacts), x, z))

    def place(self, at):
        """The shot number at a place, from 0."""
        out = _doubles(1)
        self._check(_call("dimple_board_place", self._buffer, self.LENGTH, _whole(at, 64, "the place"), out, 1))
        return int(out[0])

    def __len__(self):
        return int(self._buffer[2])

    def listing(self):
        return [self.place(i) for i in range(len(self))]


def _accept(answer):
    if answer:
        raise Refused(answer)


class Shelf:
    """Up to 16 states, each kept under a name of 1 to 12 letters from A to Z."""

    def __init__(self):
        self._buffer = _doubles(368)
        _accept(_call("dimple_shelf_new", self._buffer, 368))

    @staticmethod
    def _name(name):
        """The name's bytes; one that is no text in ASCII is refused as any other bad name."""
        if not isinstance(name, str):
            raise ValueError(f"the name {name!r} is no text")
        return name.encode("ascii", "replace")

    def save(self, name, state):
        """Keeps the state under the name, in place of one kept there before."""
        n, s = self._name(name), _doubles(10, state.time, *state.pos, *state.vel, *state.spin)
        _accept(_call("dimple_shelf_save", self._buffer, 368, n, len(n), s, 10))

    def return_to(self, name):
        """The state last saved under the name and not dropped since."""
        n, s = self._name(name), _doubles(10)
        _accept(_call("dimple_shelf_return", self._buffer, 368, n, len(n), s, 10))
        return _state(s[:10])

    def drop(self, name):
        """The name no more; its place is free again."""
        n = self._name(name)
        _accept(_call("dimple_shelf_drop", self._buffer, 368, n, len(n)))

    def names(self):
        """The names kept, in the order of the alphabet."""
        places = [list(self._buffer[i:i + 13]) for i in range(0, 368, 23)]
        return sorted("".join(chr(int(b)) for b in p[1:1 + int(p[0])]) for p in places if p[0])
