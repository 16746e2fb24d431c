"""What a job says of names beside its modules: a module that says it, and modules without their own starts.

The module has no segments: an external for each name that is wanted, that of the start first, and a
record for each alias.
"""

from model import records
from model.libraries import whole_frames
from model.names import ALIAS
from model.records import Direct, Method, Reference, Spelling

# the word for the module, and its title
DIRECTIVES = "directives"
ENDS, HAS_START = (0x8A, 0x8B), 0x40


def says_names(job):
    """Whether a job says something of names."""
    return job.start is not None or bool(job.references) or bool(job.aliases)


def names_module(job):
    """The bytes of the module."""
    spelling = Spelling()
    wanted = [each for each in [job.start] if each is not None] + job.references
    start = None if job.start is None else Reference(Direct(Method.TARGET), Direct(Method.EXTERNAL, 1), 0)
    return b"".join([
        spelling.record(records.Header(DIRECTIVES.encode())),
        *[spelling.record(records.ExternalNames([each.encode()], [0])) for each in wanted],
        *[spelling.framed(ALIAS, records.name(alias.encode()) + records.name(means.encode()))
          for alias, means in job.aliases],
        spelling.record(records.ModuleEnd(start is not None, start))])


def without_start(content):
    """A module that says of no start in the record that ends it; its other records are the same."""
    place = 0
    for frame in whole_frames(content):
        if frame.kind in ENDS:
            if frame.body and frame.body[0] & HAS_START:
                return content[:place] + Spelling().record(records.ModuleEnd(False, None))
            break
        place += len(frame.body) + 4
    return content
