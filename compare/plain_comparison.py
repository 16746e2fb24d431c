"""Runs `doslib list` and its model on the same files, on a system that has no names with quotes or backslashes.

All names of files are of the form 8.3 and of ASCII, so that DOS has them too.
"""

import doslib_comparison

no_counts, lines_of_limits = doslib_comparison.no_counts, doslib_comparison.lines_of_limits
lines_of_ends, summary = doslib_comparison.lines_of_ends, doslib_comparison.summary
PLAIN = {"c d": "c", "\u00e9.a": "d.a", 'q"\\': "q"}


class Comparison(doslib_comparison.Comparison):
    """Compares one seed after the other, as on such a system."""

    def path_of(self, path):
        return PLAIN.get(path, path)


def compare_seeds(program, folder, seeds, keeps=False):
    """Compares some seeds; answers the counts and a line for each difference."""
    return doslib_comparison.compare_seeds(program, folder, seeds, keeps, Comparison)
