"""Runs `doslink` and its model on the same jobs, on a system whose names of files tell no cases apart.

There are no lines of LINK and TLINK, for which the model looks for names by itself; directives name files as they are,
but for what parts folders.
"""

import doslink_comparison
from model.places import BlindFiles

no_counts, lines_of_limits = doslink_comparison.no_counts, doslink_comparison.lines_of_limits
lines_of_ends, summary = doslink_comparison.lines_of_ends, doslink_comparison.summary


class Comparison(doslink_comparison.Comparison):
    """Compares one job after the other, as on such a system."""

    has_lines = tells_cases = False
    names = (doslink_comparison.LINK, doslink_comparison.DIRECTIVES)

    def files_of(self, case, given):
        return BlindFiles({**case.files, **given})


def compare_seeds(program, folder, seeds, keeps=False):
    """Compares some seeds; answers the counts and a line for each difference."""
    return doslink_comparison.compare_seeds(program, folder, seeds, keeps, Comparison)
