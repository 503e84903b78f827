"""Directories that lie in themselves. The root leads to none of them, so they are looked for away from it."""


def row_in_loop(rows, rows_below):
    """One of these rows that no way from outside of all loops leads to, or None. `rows_below` are those in a row."""
    above = dict.fromkeys(rows, 0)
    for row in rows:
        for below in rows_below(row):
            if below in above:
                above[below] += 1
    ahead = [row for row, count in above.items() if count == 0]
    while ahead:
        row = ahead.pop()
        del above[row]
        for below in rows_below(row):
            if below in above:
                above[below] -= 1
                if above[below] == 0:
                    ahead.append(below)
    return next(iter(above), None)
