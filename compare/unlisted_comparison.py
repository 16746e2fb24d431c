"""Runs `doslink` and its model on the same jobs, on a system that lists no folders.

There names of files in lines of LINK and TLINK, and in directives, count as they are written, but for the slashes.
"""

import doslink_comparison
from model.places import UnlistedFiles

no_counts, lines_of_limits = doslink_comparison.no_counts, doslink_comparison.lines_of_limits
lines_of_ends, summary = doslink_comparison.lines_of_ends, doslink_comparison.summary


class Comparison(doslink_comparison.Comparison):
    """Compares one job after the other, as on such a system."""

    has_devices = False

    def files_of(self, case, given):
        return UnlistedFiles({**case.files, **given})


def compare_seeds(program, folder, seeds, keeps=False):
    """Compares some seeds; answers the counts and a line for each difference."""
    return doslink_comparison.compare_seeds(program, folder, seeds, keeps, Comparison)
