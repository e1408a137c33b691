"""A box under a lid that is a parametric spline surface (114), with parametric splines (112) as its rim: the file of LID is of this text.

  tests/spline_files.py    writes that file

The lid is z = 3 + p(x) + p(y) / 2 for x and y from 0 to 4, where p is a cubic on each side of 2, with p(0) = p(4) = 0 and p(2) = 1."""
import pathlib

from sample_file import text_of

LID = pathlib.Path(__file__).resolve().parent / "inputs" / "box_under_a_parametric_spline_surface.igs"
# The cubics of p by their coefficients, each from the start of its span on.
SPANS = (0, 0, 0.75, -0.25), (1, 0, -0.75, 0.25)
BREAKS = 0, 2, 4
ZEROS = [0] * 16


def scaled(cubic, factor):
    return [it * factor for it in cubic]


def patch(i, j):
    """The 48 coefficients of a patch: those of each axis by rising powers of the second parameter, each by rising powers of the first."""
    of_x = [BREAKS[i], 1, *ZEROS[2:]]
    of_y = [BREAKS[j], *ZEROS[1:4], 1, *ZEROS[5:]]
    along, across = SPANS[i], scaled(SPANS[j], 0.5)
    of_z = [3 + along[0] + across[0], *along[1:], *(v for it in across[1:] for v in (it, 0, 0, 0))]
    return [*of_x, *of_y, *of_z]


def lid():
    # Behind the last patch of a row and behind the last row there is room for one more, whose numbers mean nothing.
    rows = [[*(v for j in range(2) for v in patch(i, j)), *ZEROS * 3] for i in range(2)]
    return 114, 0, [3, 1, 2, 2, *BREAKS, *BREAKS, *rows[0], *rows[1], *ZEROS * 9]


def rim(axis, other):
    """The spline on the side at which the other coordinate has a value: along x or along y."""
    pieces = []
    for k, cubic in enumerate(SPANS):
        own, fixed = [BREAKS[k], 1, 0, 0], [other, 0, 0, 0]
        height = scaled(cubic, 0.5 if axis else 1)
        pieces += [*(fixed if axis else own), *(own if axis else fixed), 3 + height[0], *height[1:]]
    # The values and derivatives at the end.
    return 112, 0, [3, 1, 3, 2, *BREAKS, *pieces, *[0] * 12]


def line(one, other):
    return 110, 0, [*one, *other]


def plane(a, b, c, d):
    return 108, 0, [a, b, c, d, 0, 0, 0, 0, 0]


def solid():
    """The records: corners 1 to 4 below and 5 to 8 above; edges 1 to 4 below, 5 to 8 upright, 9 to 12 the rim."""
    floor = [(0, 0, 0), (4, 0, 0), (4, 4, 0), (0, 4, 0)]
    corners = floor + [(x, y, 3) for x, y, _ in floor]
    ends = [(k + 1, (k + 1) % 4 + 1) for k in range(4)] + [(k + 1, k + 5) for k in range(4)] + [(5, 6), (6, 7), (8, 7), (5, 8)]
    curves = [line(corners[a - 1], corners[b - 1]) for a, b in ends[:8]] + [rim(0, 0), rim(1, 4), rim(0, 4), rim(1, 0)]
    surfaces = [plane(0, 0, 1, 0), plane(0, 1, 0, 0), plane(1, 0, 0, 4), plane(0, 1, 0, 4), plane(1, 0, 0, 0), lid()]
    loops = [
        [(4, 0), (3, 0), (2, 0), (1, 0)],
        [(1, 1), (6, 1), (9, 0), (5, 0)],
        [(2, 1), (7, 1), (10, 0), (6, 0)],
        [(3, 1), (8, 1), (11, 1), (7, 0)],
        [(4, 1), (5, 1), (12, 1), (8, 0)],
        [(9, 1), (10, 1), (11, 0), (12, 0)],
    ]
    face, surface = 9 + 2 * len(curves), 9 + 2 * len(curves) + 4 * len(loops)
    records = [
        (186, 0, [3, 1, 0]),
        (514, 1, [len(loops), *(v for k in range(len(loops)) for v in (face + 4 * k, 1))]),
        (502, 1, [len(corners), *(v for corner in corners for v in corner)]),
        (504, 1, [len(ends), *(v for k, (a, b) in enumerate(ends) for v in (9 + 2 * k, 5, a, 5, b))]),
        *curves,
    ]
    for k, loop in enumerate(loops):
        records.append((510, 1, [surface + 2 * k, 1, 1, face + 4 * k + 2]))
        records.append((508, 1, [len(loop), *(v for edge, flag in loop for v in (0, 7, edge, flag, 0))]))
    return [*records, *surfaces]


def lid_text():
    return text_of(solid())


if __name__ == "__main__":
    LID.write_bytes(lid_text())
