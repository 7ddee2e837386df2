"""Models of the wake-ups that the server may not lose (docs/ARCHITECTURE.md): all interleavings of the lines on which each rests,
without the timeouts after which a thread looks again. In the order of the code no thread may be left asleep though there is work
for it, and each exchange of lines after which one is has to be found. The code has to have the lines in the order of the model.

  python3 scripts/outside/wakeups.py      prints how each exchanged order loses a wake-up, and how many were found
"""
import os
import re
import sys
from dataclasses import dataclass

SCRIPTS = os.path.dirname(os.path.dirname(os.path.abspath(__file__)))
sys.path.insert(0, SCRIPTS)

from outside.interleavings import Thread, rows_of, stuck  # noqa: E402

PENDING = "numbered > settled and not in_flight"
TAKE = "my_batch = (numbered - settled) * (not in_flight); in_flight |= my_batch > 0"

# Commands up to `settled` are stored. Those of a batch in flight are not pending.
DESK = {"numbered": 0, "settled": 0, "in_flight": False, "flushing": False, "asleep": False, "woken": False, "ended": False}
FLUSHER = ("flusher", f"""
over   | flush_until_over | if server.is_over()           | go = "end" if ended else None
on     | flush_until_over | server.note_flushing(true)    | flushing = True
take   | take_batch       | desk.take(rt                  | {TAKE}
settle | store_batch      | desk.settle(rt, receipt       | settled += my_batch; in_flight &= not my_batch; go = my_batch and "on"
off    | flush_until_over | note_flushing(after ==        | flushing = False
look   | await_commands   | .wait_timeout_while(          | asleep = not (woken or {PENDING}); go = None if asleep else "awake"
sleep  | await_commands   | !desk.ends_wait()             | wait = asleep; go = "look"
clear  | await_commands   | desk.clear_wake()             | woken = False
again  | flush_until_over | engine.await_commands(        | go = "on"
""", ":on over on take settle off :look look+ sleep :awake clear again")
NOTIFIER = ("worker", f"""
number | serve_some       | desk.serve(rt, submission     | numbered += 1
ask    | hand_over_some   | desk.has_pending()            | my_has = {PENDING}
read   | flush            | self.server.is_flushing()     | my_free = not flushing
tell   | flush            | self.server.engine.notify_flu | asleep &= not (my_has and my_free)
""", "number+ ask read tell")
STORER = ("worker", f"""
number | serve_some       | desk.serve(rt, submission     | numbered += 1
ask    | hand_over_some   | desk.has_pending()            | my_has = {PENDING}
read   | flush            | self.server.is_flushing()     | go = None if my_has and not flushing else "end"
take   | take_batch       | desk.take(rt                  | {TAKE}; go = None if my_batch else "failed"
settle | store_batch      | desk.settle(rt, receipt       | settled += my_batch; in_flight = False
see    | unlock           | desk.has_pending()            | my_has = {PENDING}
tell   | unlock           | self.pending.notify_one()     | asleep &= not my_has
done   | flush            | != Ok(RoundEnd::Done)         | go = "end"
wake   | wake             | self.desk.lock(rt).wake()     | woken = True
ring   | wake             | self.pending.notify_one()     | asleep = False
""", "number+ ask read take settle+ see tell done :failed wake ring")
TICKER = ("ticker", f"""
tick   | tick             | desk.tick(rt, now             | numbered += 1
ask    | unlock           | desk.has_pending()            | my_has = {PENDING}
tell   | unlock           | self.pending.notify_one()     | asleep &= not my_has
""", "tick+ ask tell")

# A worker that sleeps while calls of it wait, and whoever sends an answer to one of them.
CALLS = {"calls": 2, "sent": 0, "answered": 0, "is_calling": False, "is_asleep": False, "waker": False}
CALLER = ("worker", """
calls  | lie_down         | self.is_calling.store(        | is_calling = calls > 0
down   | lie_down         | self.is_asleep.store(true     | is_asleep = True
count  | take_answers     | replace(&mut self.taken_at    | my_new = my_count != answered; my_count = answered
take   | take_answers     | self.take_answer(key, buffer) | calls, sent = (calls - sent, 0) if my_new else (calls, sent)
sleep  | rest             | watch.wait(                   | wait = not waker; waker = False
up     | rest             | self.inbox.get_up()           | is_asleep = False
again  | serve_inbox      | worker.rest(                  | go = "rest"
""", ":rest calls down count take sleep up again")
SENDER = ("flusher", """
send   | send_all         | deliveries.send_all(rt)       | sent += 1
count  | send_all         | self.answered.fetch_add(1     | answered += 1
calls  | wake_caller      | self.is_calling.load(         | my_wakes = is_calling
swap   | wake             | self.is_asleep.swap(false     | my_wakes &= is_asleep; is_asleep &= not my_wakes
wake   | wake             | self.waker.wake()             | waker |= my_wakes
""", "send count calls swap wake")

# A worker that waits for streams; whoever hands one over, closes the server, or hands over the last one.
INBOX = {"streams": 0, "served": 0, "closing": False, "closed": False, "done": False, "is_asleep": False, "waker": False}
SERVER = ("worker", """
done   | is_over          | self.server.is_done()         | my_done = done
empty  | is_over          | self.inbox.is_empty(          | my_empty = streams == 0
over   | serve_inbox      | if worker.is_over()           | go = "end" if my_done and my_empty else None
down   | lie_down         | self.is_asleep.store(true     | is_asleep = True
shut   | has_work         | self.server.is_closing()      | my_work = closing and not closed
new    | has_work         | self.inbox.is_empty(          | my_work |= streams > 0
done2  | is_over          | self.server.is_done()         | my_done = done
empty2 | is_over          | self.inbox.is_empty(          | my_work |= my_done and streams == 0
sleep  | rest             | watch.wait(                   | wait = not waker and not my_work; waker = False
up     | rest             | self.inbox.get_up()           | is_asleep = False
close  | close            | self.server.is_closing()      | closed = closing
enter  | enter_some       | self.inbox.take(              | served += streams; streams = 0
again  | serve_inbox      | worker.work(                  | go = "top"
""", ":top done empty over down shut new done2 empty2 sleep up close enter again")
WAKE = """
swap   | wake             | self.is_asleep.swap(false     | my_wakes = is_asleep; is_asleep = False
wake   | wake             | self.waker.wake()             | waker |= my_wakes
"""
PUT = "put    | put              | .push_back(stream)            | streams += 1"
SHUT = "shut   | refuse           | self.closing.store(true       | closing = True"
DONE = "done   | finish_accepting | self.done.store(true          | done = True"
PUTTER = ("acceptor", PUT + WAKE, "put swap wake")
CLOSER = ("crew", SHUT + WAKE, "shut swap wake")
LAST = ("acceptor", f"{PUT}\n{DONE}{WAKE}", "put done swap wake")

# A connection of which nothing is served before a reply, one byte a read. `epoll` reports once that something came.
STREAM = {"bytes": 0, "event": False, "sent": False, "waker": False, "readable": False, "unserved": False, "served": 0}
READER = ("worker", """
ask    | most_wait        | if self.has_work()            | my_work = unserved
wait   | rest             | watch.wait(                   | wait = not event and not waker and not my_work
events | serve_events     | in watch.events()             | my_event = event; event = waker = False
note   | serve_event      | connection.note_readable(     | readable |= my_event
reply  | take_replies     | self.session.next_reply(      | my_turn = sent
read   | receive          | self.stream.read(buffer)      | my_read = my_turn and readable and bytes > 0; bytes -= my_read
keep   | receive          | self.is_readable = count ==   | readable &= my_read or not my_turn
took   | receive          | self.take(&buffer[..count])   | served += my_read
list   | visit            | self.unserved.push(key)       | unserved = my_turn and readable
again  | serve_inbox      | worker.work(                  | go = "rest"
""", ":rest ask wait+ events note reply read keep took list again")
CLIENT = ("client", """
first  |                  |                               | bytes += 1; event = True
second |                  |                               | bytes += 1; event = True
""", "first second")
REPLIER = ("flusher", """
send   | send_all         | deliveries.send_all(rt)       | sent = True
wake   | wake             | self.waker.wake()             | waker = True
""", "send wake")

# A bell. After these two a wait for a bell is one line.
BELL = {"rung": False, "asleep": False}
RINGER = ("ringer", """
set    | ring             | *self.rung.lock(rt) = true    | rung = True
tell   | ring             | self.changed.notify_one()     | asleep = False
""", "set tell")
LISTENER = ("listener", """
look   | wait             | .wait_timeout_while(          | asleep = not rung; go = None if asleep else "rung"
sleep  | wait             | |rung| !*rung                 | wait = asleep; go = "look"
take   | wait             | *rung = false                 | rung = False
""", ":look look+ sleep :rung take")

# A flusher that finds the log full, one that watches the room, and the compactor, after whose last round two segments are free.
ROOM = {"free": 1, "least": 0, "stored": 0, "full": False, "under_way": False, "given_up": False, "rung": False,
        "flush_rung": False, "ended": False}
FULL = ("flusher", """
store  | flush_until_over | server.flush_round(rt)        | my_room = free > 0; free -= my_room; stored += my_room
after  | flush_until_over | match after                   | go = "end" if stored == 2 else "store" if my_room else None
new    | flush_until_over | begin_full(rt, server)        | my_full = full
set    | begin_full       | self.full.store(true          | full = True
ring   | begin_full       | self.compactor.ring(rt)       | rung |= not my_full
wait   | flush_until_over | server.flush.wait(rt, tick)   | wait = not flush_rung; flush_rung = False; go = "store"
""", ":store store after new set ring wait")
WATCHER = ("flusher", """
store  | flush_until_over | server.flush_round(rt)        | my_room = free > 0; free -= my_room; stored += my_room
leave  | watch            | !self.has_given_up()          | my_leave = given_up
low    | watch            | self.is_low(rt, engine)       | my_low = free < least or under_way
idle   | watch            | !is_under_way(rt, engine)     | my_idle = not under_way
ring   | watch            | self.compactor.ring(rt)       | rung |= my_low and my_idle and not my_leave
again  | flush_until_over | match after                   | go = "store" if stored < 3 else "end"
""", ":store store leave low idle ring again")
COMPACTOR = ("compactor", """
hush   | compact_until_over | bell.hush(rt)               | rung = False
over   | compact_until_over | if server.is_over()         | go = "end" if ended else None
look   | is_wanted          | server.room.is_full()       | my_wanted = full or free < least
begin  | compact_once       | engine.compact_round(rt)    | under_way = my_wanted
note   | compact_once       | server.room.note_given_up(  | given_up &= not my_wanted
round  | compact_once       | engine.compact_round(rt)    | free = 2 if my_wanted else free; under_way = False
wake   | compact_until_over | server.wake_flusher(rt)     | flush_rung |= my_wanted
wait   | compact_until_over | bell.wait(rt, pause)        | wait = not rung; rung = False; go = "top"
""", ":top hush over look begin note round wake wait")
ENDER = ("crew", """
end    | end              | self.over.store(true          | ended = True
wake   | wake             | self.desk.lock(rt).wake()     | woken = True
tell   | wake             | self.pending.notify_one()     | asleep = False
ring   | end              | self.room.compactor.ring(rt)  | rung = True
""", "end wake tell ring")

# The acceptor, and whoever closes the server while it sleeps.
PORT = {"closing": False, "queue": 0}
ACCEPTOR = ("acceptor", """
look   | accept_all       | server.is_closing()           | go = "end" if closing else None
accept | accept_all       | listener.accept()             | wait = not queue; queue -= 1; go = "top"
""", ":top look accept")
CONNECTOR = ("reporter", """
close  | close            | self.refuse()                 | closing = True
to     | close            | TcpStream::connect(rt         | queue += 1
""", "close to")

# The first values of the threads' own variables.
OWN = {"my_has": True, "my_free": True, "my_work": False, "my_wanted": False, "my_wakes": False, "my_full": False,
       "my_leave": False, "my_low": False, "my_idle": False, "my_count": 0}


@dataclass(frozen=True)
class Model:
    """Threads, the first values of their variables, the end that has to stay within reach, and exchanged orders, each of one
    thread."""
    name: str
    threads: list
    start: dict
    end: str
    exchanged: list

    def stuck(self, exchanged=("", "")):
        """Returns how a wake-up is lost, or None. With a thread and an order the lines of that thread are exchanged."""
        changed, new = exchanged
        threads = [Thread(name, table, new if name == changed else order) for name, table, order in self.threads]
        return stuck(threads, self.start, OWN, self.end)


MODELS = [
    Model("1. commands come while the flusher falls asleep", [FLUSHER, NOTIFIER, TICKER], DESK, "settled == 2", [
        ("flusher", ":on over on take settle :look look+ sleep :awake off clear again"),
        ("worker", "ask+ number read tell"),
        ("worker", "read number+ ask tell"),
        ("worker", "tell number+ ask read"),
        ("ticker", "ask+ tick tell"),
        ("ticker", "tell tick+ ask")]),
    Model("2. commands come while a batch is in flight", [FLUSHER, STORER, STORER], DESK, "settled == 2", [
        ("worker", "number+ ask read take see+ settle tell done :failed wake ring"),
        ("worker", "number+ ask read take tell settle+ see done :failed wake ring")]),
    Model("3. answers are sent while a worker falls asleep", [CALLER, SENDER, SENDER], CALLS, "calls == 0", [
        ("flusher", "count send calls swap wake"),
        ("flusher", "send calls swap wake count"),
        ("worker", ":rest count take calls down sleep up again"),
        ("worker", ":rest calls down count take up sleep again")]),
    Model("4. a stream is handed over, or the server closes", [SERVER, PUTTER, CLOSER], INBOX, "served == 1 and closed", [
        ("worker", ":top done empty over shut new done2 empty2 down sleep up close enter again"),
        ("worker", ":top done empty over down shut new done2 empty2 up sleep close enter again"),
        ("acceptor", "swap wake put"),
        ("crew", "swap wake shut")]),
    Model("4. the last stream is handed over", [SERVER, LAST], INBOX, "served == 1 and 'worker' in over", [
        ("worker", ":top empty done over down shut new done2 empty2 sleep up close enter again"),
        ("acceptor", "done put swap wake"),
        ("acceptor", "put swap wake done")]),
    Model("5. a stream becomes ready while it may not be served", [READER, CLIENT, REPLIER], STREAM, "served == 2", [
        ("worker", ":rest ask wait+ events reply read keep took list note again"),
        ("worker", ":rest wait+ events note reply read keep took ask list again"),
        ("flusher", "wake send")]),
    Model("6. a bell is rung while a thread begins to wait", [LISTENER, RINGER], BELL, "'listener' in over", [
        ("ringer", "tell set")]),
    Model("6. the log becomes full, and has room again", [FULL, COMPACTOR], ROOM, "stored == 2", [
        ("flusher", ":store store after new ring set wait"),
        ("compactor", ":top over look hush begin note round wake wait"),
        ("compactor", ":top hush over look wake begin note round wait")]),
    Model("6. too few segments are free", [WATCHER, COMPACTOR], {**ROOM, "least": 2, "given_up": True},
          "stored == 3 and free >= least", [
              ("flusher", ":store low store leave idle ring again"),
              ("flusher", ":store idle store leave low ring again"),
              ("flusher", ":store leave low idle ring store again"),
              ("compactor", ":top over look hush begin note round wake wait"),
              ("compactor", ":top hush over look begin round note wake wait")]),
    Model("6. the server is over", [FLUSHER, COMPACTOR, ENDER], {**DESK, **ROOM}, "{'flusher', 'compactor'} <= over", [
        ("crew", "wake tell ring end"),
        ("crew", "end tell wake ring"),
        ("compactor", ":top over hush look begin note round wake wait"),
        ("flusher", ":on over on take settle off clear :look look+ sleep :awake again")]),
    Model("7. the server closes while the acceptor sleeps", [ACCEPTOR, CONNECTOR], PORT, "'acceptor' in over", [
        ("reporter", "to close")]),
]

# Where the functions of the models are called, in their order.
CALLS_IN = """
serve_inbox        | worker.is_over() | worker.rest( | worker.work(
rest               | self.inbox.lie_down( | self.take_answers( | self.flush( | watch.wait(self.most_wait()) | self.inbox.get_up()
work               | self.close() | self.enter_some( | self.serve_events( | self.flush( | self.take_answers(
flush              | self.hand_over() | self.server.is_flushing() | notify_flusher() | server.flush_round( | server.engine.wake(
hand_over          | requests.is_empty() | self.hand_over_some(rt, requests)
hand_over          | self.engine.answered() | self.engine.hand_over(rt, requests) | self.wake_callers_since(answered)
hand_over_some     | self.desk.lock(rt) | serve_some( | desk.has_pending() | drop(desk) | self.send_all(
take_batch         | self.engine.answered() | self.engine.take_batch(rt) | self.wake_callers_since(answered)
flush_round        | self.take_batch(rt) | self.engine.store_batch(rt, batch) | self.wake_callers()
take_batch         | self.desk.lock(rt) | desk.take( | drop(desk) | self.send_all(
store_batch        | self.store.lock(rt) | self.desk.lock(rt) | desk.settle( | self.unlock(
unlock             | desk.has_pending() | drop(desk) | self.pending.notify_one() | self.send_all(
flush_until_over   | server.flush_round(rt) | server.room.watch(
wake_caller        | self.is_calling.load( | self.wake()
put                | .push_back(stream) | self.wake()
refuse             | self.closing.store(true | self.wake_workers()
finish_accepting   | self.done.store(true | self.wake_workers()
serve_event        | connection.note_readable( | self.visit(
end                | self.over.store(true | self.wake_flusher(rt) | self.room.compactor.ring(rt)
compact_until_over | bell.hush(rt) | server.is_over() | compact_once( | server.wake_flusher(rt) | bell.wait(rt, pause)
compact_once       | is_wanted( | server.engine.compact_round(rt) | server.room.note_given_up(
"""


def functions():
    """Returns the texts of the functions of all crates, by name."""
    found = {}
    for at, _, names in os.walk(os.path.join(os.path.dirname(SCRIPTS), "crates")):
        for name in names:
            if name.endswith(".rt"):
                with open(os.path.join(at, name), encoding="utf-8") as file:
                    for it in re.split(r"\n(?= *(?:pub(?:\(crate\))? )?fn )", file.read())[1:]:
                        found.setdefault(re.search(r"fn (\w+)", it)[1], []).append(it)
    return found


def has_in_order(texts, parts):
    """Returns whether one of the texts has these parts, one after another."""
    return any(re.search(".*".join(map(re.escape, parts)), text, re.S) for text in texts)


def missing(model, texts):
    """Returns the functions that do not have the lines of a model, or not in its order."""
    found = []
    for _, table, _ in model.threads:
        lines = {}
        for _, function, source, _ in rows_of(table):
            lines.setdefault(function, {})[source] = None
        found += [it for it in lines if it and not has_in_order(texts.get(it, []), lines[it])]
    return found


def check(report, programs=None, folder=None):
    """Tries the order of the code and each exchanged one, and looks for the lines in the code. No program is needed."""
    texts = functions()
    for row in CALLS_IN.strip().split("\n"):
        name, *parts = row.split(" | ")
        report.holds(f"calls in {row}", has_in_order(texts.get(name.strip(), []), parts), "they are not there in this order")
    for model in MODELS:
        report.equal(f"{model.name}: functions without the lines of the model", missing(model, texts), [])
        lost = model.stuck()
        report.holds(model.name, lost is None, f"a wake-up is lost after {'; '.join(lost or [])}")
        for exchanged in model.exchanged:
            report.holds(f"{model.name}: {' '.join(exchanged)}", model.stuck(exchanged) is not None, "no wake-up is lost")


def show(title, lost, otherwise):
    """Prints how a wake-up is lost. Returns whether one is."""
    print(f"{title}: {otherwise if lost is None else 'loses a wake-up after'}", *(lost or []), sep="\n    ")
    return lost is not None


def main():
    held = found = 0
    for model in MODELS:
        held += not show(model.name, model.stuck(), "holds")
        found += sum(show(f"  {': '.join(it)}", model.stuck(it), "NOT FOUND") for it in model.exchanged)
    print(f"{held} orders hold, {found} exchanged orders are found")


if __name__ == "__main__":
    main()
