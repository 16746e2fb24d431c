"""Runs `doslink` and its model on the same jobs by lines of LINK and TLINK, and on no others."""

import doslink_comparison

no_counts, lines_of_limits = doslink_comparison.no_counts, doslink_comparison.lines_of_limits
lines_of_ends, summary = doslink_comparison.lines_of_ends, doslink_comparison.summary


class Comparison(doslink_comparison.Comparison):
    """Compares one such job after the other."""

    has_words = False


def compare_seeds(program, folder, seeds, keeps=False):
    """Compares some seeds; answers the counts and a line for each difference."""
    return doslink_comparison.compare_seeds(program, folder, seeds, keeps, Comparison)
