"""What tasks need under preemptive fixed priorities on one processor, in two ways that share nothing.

A task is a pair: the cycles of a job, and the period. Tasks stand in falling priority. A response that is longer than its
period is None, and so are those behind it.
"""


def simulated(tasks):
    """The cycles that the first job of each task takes, where all are released together and then as often as they may."""
    responses = []
    for number, (_, period) in enumerate(tasks):
        responses.append(finish(tasks[:number + 1], period))
        if responses[-1] is None:
            return responses
    return responses


def finish(tasks, period):
    """When the first job of the last task is finished, cycle by cycle: at the end of its period at the latest."""
    left = [0] * len(tasks)
    waiting, last = tasks[-1][0], len(tasks) - 1
    for cycle in range(period):
        if waiting == 0:
            return cycle
        for number, (cycles, every) in enumerate(tasks[:last]):
            if cycle % every == 0:
                left[number] += cycles
        first = next((number for number in range(last) if left[number]), last)
        if first == last:
            waiting -= 1
        else:
            left[first] -= 1
    return period if waiting == 0 else None


def solved(tasks):
    """The least solution of the equation of each task: the cycles of its job, and those of all jobs above it that begin."""
    responses = []
    for number, (cycles, period) in enumerate(tasks):
        within, load = -1, 0
        while within < load <= period:
            within = load
            load = cycles + sum(-(-within // every) * above for above, every in tasks[:number])
        responses.append(load if load <= period else None)
        if responses[-1] is None:
            return responses
    return responses
