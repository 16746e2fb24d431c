"""Files by their paths: by whatever path leads to them, by names of DOS, and where names tell no cases apart, as under
Windows."""

import re
from os.path import join, normpath, split
from pathlib import PurePosixPath

HERE = "."
# what a path with a drive begins with
DRIVE = re.compile("[A-Za-z]:")
# how many names of a path are looked for at most
MOST_NAMES = 64


def folders_of(paths):
    """The folders of normal paths, and this one."""
    return {HERE}.union(str(folder) for path in paths for folder in PurePosixPath(path).parents)


class Places(dict):
    """The bytes of files by path, and the folders that these stand in; `same` is what paths to one file have in common.
    """

    same = staticmethod(normpath)
    # whether the system tells what stands in folders
    is_told = True

    def __init__(self, files):
        super().__init__(files)
        self.names = {self.same(path): path for path, content in files.items() if content is not None}
        self.folders = folders_of(self.names)

    def has_folders(self, path):
        """Whether each folder of a path is there."""
        ends = [at for at, byte in enumerate(path) if byte == "/"]
        return 0 not in ends and all(self.same(path[:end]) in self.folders for end in ends)

    def is_folder(self, path):
        return path != "" and self.has_folders(path + "/")

    def names_in(self, front):
        """The names of the folder of a path's front, which is empty or ends in a slash; none where it isn't there."""
        there = {*self.names, *self.folders} - {HERE} if self.has_folders(front) else ()
        return {name for folder, name in map(split, there) if name and (folder or HERE) == self.same(front)}

    def can_be_made(self, path):
        """Whether a file can be written at a path: in a folder that is there, and in the place of none."""
        return self.has_folders(path) and not self.is_folder(path)

    def as_new(self, name):
        """What the names of one file have in common that isn't there yet: by names of DOS, all but the case."""
        return small(name)


class PlacedFiles(Places):
    """Files of which each path that leads to one finds it."""

    def get(self, path, default=None):
        is_path = self.has_folders(path) and not path.endswith("/")
        content = super().get(self.names.get(normpath(path))) if is_path else None
        return default if content is None else content

    def __getitem__(self, path):
        return self.get(path)


class UnlistedFiles(PlacedFiles):
    """The same where folders can't be listed."""

    is_told = False

    def names_in(self, front):
        return ()

    def as_new(self, name):
        return name


def same_name(path):
    """What all paths have in common that lead to one file."""
    return normpath(path.replace("\\", "/")).casefold()


class BlindFiles(Places):
    """Files of which a path leads to the one of this very name, or else to one whose name is the same but for case."""

    same = staticmethod(same_name)
    is_told = False

    def get(self, path, default=None):
        content = super().get(path)
        if content is None:
            content = super().get(self.names.get(same_name(path)))
        return default if content is None else content

    def __getitem__(self, path):
        return self.get(path)

    def place(self, path):
        """Where a path leads to: that of two paths is the same where they lead to one file."""
        return same_name(path) if super().get(path) is None else normpath(path)


def small(name):
    """A name with the small letters of ASCII in the place of its capitals."""
    return name.encode().lower().decode()


def meant_name(names, name):
    """The one of a folder's names that a name means, which is itself where there is none; None where there are two."""
    same = [name] if name in names else [each for each in names if small(each) == small(name)]
    return None if len(same) > 1 else [*same, name][0]


class DosFiles:
    """Files by names of DOS, over those of a system: `\\` parts folders, and the case of ASCII doesn't count."""

    def __init__(self, files):
        self.files = files

    def lacks_drive(self, path):
        """Whether a path begins with a drive, and neither it nor what is called as the drive is there."""
        is_there = path.replace("\\", "/")
        return (DRIVE.match(path) is not None and self.files.is_told and not self.has_drive(path[:2])
                and self.files.get(is_there) is None and not self.files.is_folder(is_there))

    def has_drive(self, drive):
        """Whether something in this folder is called as a drive, in either case."""
        return any(small(each) == small(drive) for each in self.files.names_in(""))

    def meant(self, path):
        """The system's path that is meant, or None where two names of a folder may be, or its drive isn't there.

        So it is the path as it is written where something stands there, or where it has too many names.
        """
        if self.lacks_drive(path):
            return None
        names, found = path.replace("\\", "/").split("/"), []
        if len(names) > MOST_NAMES:
            return "/".join(names)
        for name in names:
            front = "/".join([*found, ""])
            found.append(meant_name(self.files.names_in(front), name))
            if found[-1] is None:
                return None
        return "/".join(found)

    def get(self, path, default=None):
        path = self.meant(path)
        return default if path is None else self.files.get(path, default)

    def __getitem__(self, path):
        return self.get(path)

    def is_folder(self, path):
        path = self.meant(path)
        return path is not None and self.files.is_folder(path)

    def has_two(self, path):
        """Whether two names of a folder may be meant."""
        return self.meant(path) is None and not self.lacks_drive(path)

    def can_be_made(self, path, can_be_made):
        """Whether the system can make the file that is meant."""
        path = self.meant(path)
        return path is not None and can_be_made(path)

    def place(self, path):
        """Where a path leads to."""
        return normpath(self.meant(path) or path)

    def is_told_by(self, path):
        """What paths to one file have in common before it is written: of what isn't there yet the name behind its
        folder counts as it is written."""
        if self.get(path) is not None:
            return self.place(path)
        folder, _, name = path.replace("\\", "/").rpartition("/")
        return join(self.place(folder or HERE), name)

    def becomes(self, path):
        """What paths to one file have in common once it is written: what isn't there yet is one in whatever case, but
        as it is written where folders can't be listed."""
        folder, name = split(self.place(path))
        return self.place(path) if self.get(path) is not None else join(folder, self.files.as_new(name))
