"""Runs `doslink` and its model on the same jobs, on a system whose names of files are in capital letters, as under DOS.

The names of files that are made are those of the model but for their cases.
"""

import os

import blind_comparison
import doslink_comparison

no_counts, lines_of_limits = blind_comparison.no_counts, blind_comparison.lines_of_limits
lines_of_ends, summary = blind_comparison.lines_of_ends, blind_comparison.summary


class Comparison(blind_comparison.Comparison):
    """Compares one job after the other, as on such a system."""

    def compare_files(self, case, wanted):
        spelled = {path.upper(): path for path in map(os.path.normpath, wanted)}
        for path in self.folder.rglob("*"):
            name = str(path.relative_to(self.folder))
            if path.is_file() and name not in case.files and name.upper() in spelled:
                path.rename(self.folder / spelled[name.upper()])
        super().compare_files(case, wanted)


def compare_seeds(program, folder, seeds, keeps=False):
    """Compares some seeds; answers the counts and a line for each difference."""
    return doslink_comparison.compare_seeds(program, folder, seeds, keeps, Comparison)
