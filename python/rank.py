"""Settles six landings on a green with a slope behind the pin, and ranks them: those at rest first."""
from dimple import FAIRWAY, GREEN, Board, Course, Landing, Patch, Physics, Refused, on_published_ground, settle

course = Course([FAIRWAY, GREEN], [Patch(-5.0, 8.0, -6.0, 6.0, surface=1), Patch(8.0, 20.0, -6.0, 6.0, h0=-0.4, a=0.05, surface=1)])
pin = (6.0, 0.5)
shots = {
    101: Landing(vel=(4.0, -6.0, 0.2), spin=(0.0, 0.0, 120.0)),
    102: Landing(vel=(5.0, -5.0, -0.3), spin=(0.0, 0.0, 60.0)),
    103: Landing(pos=(-2.0, 0.0, 1.0), vel=(6.0, -7.0, 0.0), spin=(0.0, 10.0, 200.0)),
    104: Landing(vel=(8.0, -8.0, 0.5)),
    105: Landing(vel=(float("nan"), -8.0, 0.5)),
    106: Landing(vel=(4.0, -6.0, 0.2), spin=(0.0, 0.0, 120.0)),
}
times = {106: Physics(max_time=1.5)}  # shot 106 is stopped while it still moves
board = Board(pin)
for number, landing in shots.items():
    try:
        run = settle(course, landing, times.get(number, Physics()))
        board.enter(number, run)
        x, _, z = run.rest.pos
        print(f"shot {number}: {run.termination} at ({x:.3f}, {z:.3f}), {len(run.contacts)} contacts, published ground: {on_published_ground(run, (-5.0, 20.0, -6.0, 6.0))}")
    except Refused as problem:
        print(f"shot {number}: {problem}")
for place, number in enumerate(board.listing()):
    print(f"{place + 1}. shot {number}")
