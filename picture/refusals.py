"""What a refusal tells of the run: by the number answered, for which kinds of rows and what must be so.

Answer 2 is a row out of range and 3 a list too long; neither tells anything that a picture shows.
"""


def client(run, step):
    return run.clients[int(step[1])]


def cabinet(run, step):
    return run.cabinets[int(step[1])]


def others_marked(run, step):
    return run.marked() >= run.plan.r and not cabinet(run, step).marked


REASONS = {
    '4': ('write read send leave', lambda run, step: client(run, step).left),
    '5': ('write read', lambda run, step: client(run, step).kind is not None),
    '6': ('send', lambda run, step: client(run, step).kind is None),
    '7': ('send', lambda run, step: not run.free),
    '8': ('deliver lose', lambda run, step: step[1] not in run.air),
    '9': ('stop', lambda run, step: not cabinet(run, step).up),
    '10': ('rollback', lambda run, step: not cabinet(run, step).can_go_back(int(step[2]))),
    '11': ('rollback', others_marked),
}


def has_reason(answer, run, step):
    """Whether the row may be answered so."""
    if answer in ('2', '3'):
        return True
    kinds, holds = REASONS.get(answer, ('', None))
    return step[0] in kinds.split() and holds(run, step)
