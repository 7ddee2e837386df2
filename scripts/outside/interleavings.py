"""Goes through all interleavings of a few threads, and finds a state from which a wanted end cannot be reached, as where a thread
sleeps although there is work and no other thread wakes it.

A thread is a table, with a row `key | function | line of source | effect` for each line, and an order of the keys. An effect is
Python over the variables of the model; `my_..` are the thread's own. If it sets `wait` to a true value the line cannot run now.
If it sets `go` to the name of a mark, the thread goes on there. In an order `:name` is a mark, and after `key+` a lock is held
until the next line has run.
"""
import re


def rows_of(table):
    """Returns the rows of a table."""
    return [re.split(r" +\| ", row, maxsplit=3) for row in table.strip().split("\n")]


class Thread:
    """A thread that runs lines in an order."""

    def __init__(self, name, table, order):
        self.name, self.lines, self.marks, known = name, [], {}, {}
        for key, function, source, effect in rows_of(table):
            known[key] = f"{name}: {function}: {source}", compile(effect, key, "exec")
        for word in order.split():
            if word[0] == ":":
                self.marks[word[1:]] = len(self.lines)
            else:
                self.lines.append((*known.pop(word.rstrip("+")), word[-1] == "+"))
        assert not known, f"{name}: the order lacks {', '.join(known)}"
        self.marks["end"] = len(self.lines)

    def step(self, shared, own, at):
        """Runs the line at this place, and those after it while a lock is held. Returns the shared variables, the thread's own
        ones, the next place, and what ran: nothing if the line cannot run now."""
        names, ran, is_held = {**shared, **own}, [], True
        while is_held and at < len(self.lines):
            title, effect, is_held = self.lines[at]
            changed = dict(names)
            exec(effect, {}, changed)
            if changed.pop("wait", False):
                # A thread that waits frees its lock.
                break
            ran.append(title)
            go = changed.pop("go", None)
            at = self.marks[go] if go else at + 1
            names = changed
        return {it: names[it] for it in shared}, {it: names[it] for it in names if it not in shared}, at, ran


def _name(shared, places):
    return tuple(shared.values()), tuple((at, *sorted(own.items())) for own, at in places)


def stuck(threads, start, own, end):
    """Returns a shortest list of lines after which no state that meets the condition `end` can be reached; None if there is none.
    `start` has the first values of the shared variables, `own` those of each thread's own. In `end`, `over` is the names of the
    threads that have ended."""
    first = (start, [(own, 0)] * len(threads))
    path, before, queue, good = {_name(*first): []}, {}, [first], []
    for shared, places in queue:
        name = _name(shared, places)
        over = {thread.name for thread, (_, at) in zip(threads, places) if at == len(thread.lines)}
        if eval(end, {}, {**shared, "over": over}):
            good.append(name)
        for number, thread in enumerate(threads):
            changed, its_own, at, ran = thread.step(shared, *places[number])
            after = (changed, [*places[:number], (its_own, at), *places[number + 1:]])
            if ran:
                before.setdefault(_name(*after), []).append(name)
                if _name(*after) not in path:
                    path[_name(*after)] = path[name] + ran
                    queue.append(after)
    reached = set(good)
    for name in good:
        new = set(before.get(name, [])) - reached
        reached |= new
        good += new
    return min((path[name] for name in path if name not in reached), key=len, default=None)
