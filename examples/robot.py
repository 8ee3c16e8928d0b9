#!/usr/bin/env python3
"""python3 robot.py OUT: a robot in a building, as OUT.POMDP, with a policy for it, as OUT.pg and OUT.alpha.

The robot stands on a free cell of the map and looks north, east, south or west. It moves forward or turns, and each of
three sensors says whether there is a wall in front, to its left and to its right. Where it reaches the goal it earns 1,
and is put down anywhere again. The policy keeps a hand on the wall to the right.
"""
import controller

MAP = """
#################
#.......#.......#
#.#####.#.#####.#
#.#...#...#...#.#
#.#.#.#####.#.#.#
#...#...G...#...#
#.#.#.#####.#.#.#
#.#...#...#...#.#
#.#####.#.#####.#
#.......#.......#
#################
""".split()
HEADINGS = "nesw"
STEPS = {"n": (0, -1), "e": (1, 0), "s": (0, 1), "w": (-1, 0)}
ACTIONS = ["forward", "turn-right", "turn-left"]
SENSORS = ["front", "left", "right"]

# In millionths.
MOVED = 800000  # a move forward is made, else the robot stays
TURNED = 900000  # a turn is made
SENSED = 900  # a sensor is right, in thousandths: with three sensors the products are millionths


def turned(heading, by):
    return HEADINGS[(HEADINGS.index(heading) + by) % 4]


def cell_ahead(x, y, heading):
    right, down = STEPS[heading]
    return x + right, y + down


def is_wall(cell):
    return MAP[cell[1]][cell[0]] == "#"


def places():
    """Every state but the goal: a free cell and a heading."""
    free = [(x, y) for y, row in enumerate(MAP) for x, mark in enumerate(row) if mark == "."]
    return [(x, y, heading) for x, y in free for heading in HEADINGS]


def name(place):
    x, y, heading = place
    return "goal" if MAP[y][x] == "G" else f"x{x}y{y}{heading}"


def ends(action, place):
    """The places where an action ends, each with its millionths."""
    x, y, heading = place
    if action == "forward":
        ahead = cell_ahead(x, y, heading)
        return [(place, 1000000)] if is_wall(ahead) else [((*ahead, heading), MOVED), (place, 1000000 - MOVED)]
    to = (x, y, turned(heading, 1 if action == "turn-right" else -1))
    return [(to, TURNED), (place, 1000000 - TURNED)]


def walls(place):
    """Whether there is a wall in front, to the left and to the right."""
    x, y, heading = place
    return tuple(is_wall(cell_ahead(x, y, turned(heading, by))) for by in (0, -1, 1))


def sensed():
    """What the three sensors can say together."""
    return [(front, left, right) for front in (False, True) for left in (False, True) for right in (False, True)]


def name_of_sensed(seen):
    at = [sensor for sensor, wall in zip(SENSORS, seen) if wall]
    return "-".join(["wall", *at]) if at else "open"


def chance(seen, true):
    """The millionths with which the sensors say this of the true walls."""
    product = 1
    for said, wall in zip(seen, true):
        product *= SENSED if said == wall else 1000 - SENSED
    return product // 1000


def write_model(file):
    lines = ["# A robot in a building, made by robot.py. The map, with the goal G:", *("#   " + row for row in MAP), ""]
    lines += ["discount: 0.99", "values: reward"]
    lines += ["states: " + " ".join(map(name, places())) + " goal", "actions: " + " ".join(ACTIONS)]
    lines += ["observations: " + " ".join(map(name_of_sensed, sensed())) + " at-goal", "", "start exclude: goal", ""]
    for action in ACTIONS:
        lines.append(f"T: {action} : goal uniform")
        for place in places():
            for end, parts in ends(action, place):
                lines.append(f"T: {action} : {name(place)} : {name(end)} {controller.decimal(parts)}")
    lines += ["", "O: * : goal : at-goal 1"]
    for place in places():
        row = [chance(seen, walls(place)) for seen in sensed()]
        lines.append(f"O: * : {name(place)} " + " ".join(controller.decimal(parts) for parts in row) + " 0")
    lines += ["", "R: * : * : goal : * 1"]
    with open(file, "w") as out:
        print(*lines, sep="\n", file=out)


def model():
    """The same model for `controller.evaluate`."""
    number = {name(place): i for i, place in enumerate(places())}
    goal = number["goal"] = len(number)
    states = goal + 1
    anywhere = [(e, 1 / states) for e in range(states)]
    moves = [
        [[(number[name(end)], parts / 1e6) for end, parts in ends(action, place)] for place in places()] + [anywhere]
        for action in ACTIONS
    ]
    sees = [[(z, chance(seen, walls(place)) / 1e6) for z, seen in enumerate(sensed())] for place in places()]
    sees.append([(len(sensed()), 1.0)])
    gain = [[sum(p for e, p in row if e == goal) for row in of_action] for of_action in moves]
    return controller.Model(0.99, len(sensed()) + 1, [1 / goal] * goal + [0.0], moves, [sees] * len(ACTIONS), gain)


def right_hand():
    """The node of each action, and the action that follows each sensing: to the right where there is no wall, else
    forward, else to the left. Behind a turn the wall to the right does not count."""

    def follower(action, front, right):
        if action == "forward" and not right:
            return "turn-right"
        return "turn-left" if front else "forward"

    after = [[ACTIONS.index(follower(action, front, right)) for front, _, right in sensed()] + [0] for action in ACTIONS]
    return controller.Graph([0, 1, 2], after)


def main(out):
    write_model(out + ".POMDP")
    controller.write_graph(right_hand(), out + ".pg")
    controller.write_vectors(right_hand(), controller.evaluate(model(), right_hand()), out + ".alpha")


if __name__ == "__main__":
    controller.run(main, "python3 robot.py OUT", 1)
