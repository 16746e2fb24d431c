"""Random links: how their modules go together, and their bytes."""

from generator.modules import PUBLIC_NAMES, SEGMENT_NAMES, ModuleMaker, Plan
from generator.spelling import RandomSpelling, damaged

# how large a program is: most are small, and some have much repeated data
LIKELIHOODS = {"small": 75, "repeating": 14, "large": 10, "huge": 1}
# the kinds of segments of a link: mostly all of them
COMBINATIONS = [[0, 2, 4, 5, 5, 6, 6, 7]] * 3 + [[6], [5], [2, 4, 7]]


def spelled(random, made):
    """The bytes of records, at times damaged, and at times with bytes behind the module's end."""
    spelling = RandomSpelling(random)
    content = b"".join(map(spelling.record, made))
    if random.random() < 0.02:
        return damaged(random, content)
    return content + bytes(random.randrange(256) for _ in range(random.choice([0, 0, 5])))


def planned(random, plan):
    """The records of each input of a link by a plan."""
    count = random.choice([1, 2, 2, 3])
    starting = random.randrange(2 * count)
    return [
        ModuleMaker(random, plan, plan.published[number::count]).make(
            has_start=number == starting or random.random() < 0.05)
        for number in range(count)]


def any_plan(random):
    """A size, names, and whether case is ignored."""
    size = random.choices(list(LIKELIHOODS), list(LIKELIHOODS.values()))[0]
    usual = random.sample(SEGMENT_NAMES, random.choice([1, 2, 2]))
    plan = Plan(size, [], random.random() < 0.5, usual, random.choice(COMBINATIONS))
    plan.published = plan.some_names(random, len(PUBLIC_NAMES))
    return plan


def link(random):
    """The inputs of one link, as bytes, and whether it ignores case."""
    plan = any_plan(random)
    return [spelled(random, made) for made in planned(random, plan)], plan.ignores_case
