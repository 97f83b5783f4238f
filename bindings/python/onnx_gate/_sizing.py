"""How many cells a model is lent. Only memory and time depend on it: the library judges, and its answer is the same."""

LARGEST_MODEL = 2_147_483_647

CELLS_PER_NAME = 2  # its place and its length: an odd cell is of no use
FIRST = CELLS_PER_NAME * 65_536  # the most cells of a first try
_GROWTH = 8  # the tries before the last have little more cells than it has, all together
_LEAST_NAME = 3  # bytes of a field that holds a visible name


def most_cells(model: bytes, limit: int) -> int:
    """More are of no use to a model of this length, or are not allowed."""
    return min(CELLS_PER_NAME * (len(model) // _LEAST_NAME), limit)


def more_cells(cells: int, counted: int, most: int) -> int:
    """After a 40: up to what was counted, and should that not do, up to what is of use."""
    return min(max(cells, FIRST) * _GROWTH, min(counted, most) if cells < counted else most)


def extra_cells(cells: int, lists: int) -> int:
    """Beside these everything is linear: four for each cell, in which the names of lists find room that the index leaves."""
    return max(4 * cells, 4 * (cells // CELLS_PER_NAME) + 2 + 4 * lists)
