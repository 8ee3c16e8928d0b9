#!/usr/bin/env python3
"""python3 picture.py TITLE STATE STATE ACTIONS M.lowered.alpha M.raised.alpha > M.svg: what each node is worth over the belief.

For a model of two states. STATE is a state's name, ACTIONS the names of the actions with commas between. The values are
those that polcert certified, from below and from above; the worth of a node at a belief lies between two lines, each between
the two values of one file.
"""

import controller

WIDTH, HEIGHT = 760, 440
LEFT, RIGHT, TOP, BOTTOM = 70, 210, 50, 70
COLOURS = ["#1b6ca8", "#d1495b", "#2e8b57", "#8a5fbf", "#b8860b", "#555555"]
DASHES = ["", "9 4", "2 4", "12 4 2 4", "5 3", "14 3"]


def read_vectors(text):
    """The action and the two values of each node."""
    words = text.split()
    return [(int(words[i]), float(words[i + 1]), float(words[i + 2])) for i in range(0, len(words), 3)]


def round_step(span):
    """A step of 1, 2 or 5 times a power of ten, with some four to ten lines in the span."""
    step = 10.0 ** -6
    while span / step > 10:
        step *= 2.5 if f"{step:e}"[0] == "2" else 2
    return step


def label(value):
    return f"{value:.6f}".rstrip("0").rstrip(".").replace("-", "\u2212") if value else "0"


def spread(places, gap, last):
    """The places, moved apart to stand at least `gap` from each other and none below `last`; in order."""
    order = sorted(range(len(places)), key=lambda i: places[i])
    moved = list(places)
    for before, i in zip(order, order[1:]):
        moved[i] = max(moved[i], moved[before] + gap)
    below = last + gap
    for i in reversed(order):
        moved[i] = min(moved[i], below - gap)
        below = moved[i]
    return moved


def picture(title, states, actions, lowered, raised):
    values = [value for _, *both in lowered + raised for value in both]
    apart = max(above - below for (_, *least), (_, *most) in zip(lowered, raised) for below, above in zip(least, most))
    step = round_step(max(values) - min(values))
    low = step * int(min(values) / step - (min(values) < 0))
    high = step * (int(max(values) / step) + 1)
    right, bottom = WIDTH - RIGHT, HEIGHT - BOTTOM

    def across(belief):
        return LEFT + belief * (right - LEFT)

    def down(value):
        return bottom - (value - low) / (high - low) * (bottom - TOP)

    out = [
        f'<svg xmlns="http://www.w3.org/2000/svg" viewBox="0 0 {WIDTH} {HEIGHT}" width="{WIDTH}" height="{HEIGHT}"'
        ' font-family="sans-serif" font-size="14">',
        f'<rect width="{WIDTH}" height="{HEIGHT}" fill="white"/>',
        f'<text x="{LEFT}" y="25" font-size="17">{title}</text>',
        f'<text x="{LEFT}" y="43" font-size="13" fill="#555555">two lines each, from below and from above,'
        f" at most {label(apart)} apart</text>",
    ]
    for i in range(round((high - low) / step) + 1):
        value = low + i * step
        y = f"{down(value):.1f}"
        out.append(f'<path d="M{LEFT} {y}H{right}" stroke="#dddddd"/>')
        out.append(f'<text x="{LEFT - 8}" y="{down(value) + 5:.1f}" text-anchor="end">{label(round(value, 6))}</text>')
    for i in range(6):
        x = f"{across(i / 5):.1f}"
        out.append(f'<path d="M{x} {TOP}V{bottom}" stroke="#eeeeee"/>')
        out.append(f'<text x="{x}" y="{bottom + 20}" text-anchor="middle">{label(i / 5)}</text>')
    out.append(f'<path d="M{LEFT} {TOP}V{bottom}H{right}V{TOP}" stroke="#888888" fill="none"/>')
    out.append(
        f'<text x="{across(0.5):.1f}" y="{bottom + 48}" text-anchor="middle">probability of {states[1]}'
        f" (0 is surely {states[0]})</text>"
    )
    return "\n".join([*out, *lines_of_nodes(actions, lowered, raised, down), "</svg>"])


def lines_of_nodes(actions, lowered, raised, down):
    """Two lines for each node, from below and from above, and its action beside them; `down` says how far down a value is."""
    right, out = WIDTH - RIGHT, []
    named = spread([down(second) for _, _, second in lowered], 19, HEIGHT - BOTTOM - 2)
    for n, (least, most) in enumerate(zip(lowered, raised)):
        colour = COLOURS[n % len(COLOURS)]
        dash = f' stroke-dasharray="{DASHES[n % len(DASHES)]}"' if n % len(DASHES) else ""
        for _, first, second in (least, most):
            out.append(
                f'<path d="M{LEFT} {down(first):.1f}L{right} {down(second):.1f}" stroke="{colour}" stroke-width="2.5"'
                f' fill="none"{dash}/>'
            )
        out.append(f'<path d="M{right} {down(least[2]):.1f}L{right + 18} {named[n]:.1f}H{right + 44}" stroke="{colour}"'
                   f' stroke-width="2.5" fill="none"{dash}/>')
        out.append(f'<text x="{right + 50}" y="{named[n] + 5:.1f}" fill="{colour}">node {n}: {actions[least[0]]}</text>')
    return out


def read_file(name):
    with open(name) as file:
        return read_vectors(file.read())


# (Six parameters: the words of the command line.)
def main(title, first, second, actions, lowered, raised):
    print(picture(title, [first, second], actions.split(","), read_file(lowered), read_file(raised)))


if __name__ == "__main__":
    controller.run(main, "python3 picture.py TITLE STATE STATE ACTIONS M.lowered.alpha M.raised.alpha > M.svg", 6)
