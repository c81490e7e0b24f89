"""Which crate is proved next, by how many jobs, and how long the rest takes. A module, and no
tool."""

# How much faster so many jobs prove a crate than one does. Each job loads all libraries that the
# crate uses, so that more jobs gain less and less.
SPEED = {1: 1.0, 2: 1.4, 3: 1.5, 4: 1.6}


def ways(uses, costs):
    """The seconds from the start of each crate to the end of all, along its longest chain."""
    found = {}

    def way(crate):
        if crate not in found:
            above = [way(it) for it in uses if crate in uses[it]]
            found[crate] = costs[crate] + max(above, default=0)
        return found[crate]

    return {crate: way(crate) for crate in uses}


class Order:
    """What is to be proved: what each crate uses, and the seconds that it costs one job."""

    def __init__(self, uses, costs, processors):
        self.uses, self.costs, self.processors = uses, costs, processors
        self.ways = ways(uses, costs)

    def next(self, done, running):
        """The crate to begin and its jobs, or None where each processor has a crate or each crate
        waits. `running` has the jobs of each crate that is being proved."""
        begun, idle = {*done, *running}, self.processors - len(running)
        ready = [it for it in self.uses if it not in begun and self.uses[it] <= done]
        if idle <= 0 or not ready:
            return None
        # the processors that no other crate can use now
        spare = self.processors - sum(running.values()) - len(ready) + 1
        return max(ready, key=self.ways.get), min(max(spare, 1), max(SPEED))

    def seconds_left(self, done, running, passed):
        """The seconds until all is proved. `passed` has the seconds since each crate began."""
        now, done, running = 0, set(done), dict(running)
        left = {it: max(1, self.costs[it] - passed[it] * SPEED[running[it]]) for it in running}
        while len(done) < len(self.uses):
            while chosen := self.next(done, running):
                running[chosen[0]], left[chosen[0]] = chosen[1], self.costs[chosen[0]]
            # where there are more jobs than processors, each has its share of them
            share = min(1, self.processors / sum(running.values()))
            speeds = {it: SPEED[jobs] * share for it, jobs in running.items()}
            step = min(left[it] / speeds[it] for it in running)
            now += step
            left = {it: left[it] - step * speeds[it] for it in running}
            ended = {it for it in running if left[it] < 1e-6}
            done |= ended
            running = {it: jobs for it, jobs in running.items() if it not in ended}
        return now
