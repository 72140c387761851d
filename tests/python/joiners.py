"""`Joiner`: feeds in any order, its answer to each message, and refused input.

RUNS lists the runs: functions that yield the differences found. No run reaches `TAKEN_NO_MEMORY`, which requires a failed allocation;
tests/program/memory.c tests it for the library.
"""
import random

import common
from common import differs
from samples import generated, program, raised, refusal
from sundrekk import Day, Joiner, Market, Reason, Refused, Step, payloads

END, END_AT_3 = b"G                   1", b"G                   3"
FEED = [bytes(it) for it in payloads(common.file("START AAPL BUY_1 BUY_2 BUY_3_OF_300"))]


def joined(waiting=0, only=None):
    """Returns a joiner that has joined an empty market before message 1."""
    joiner = Joiner(waiting, only=only)
    joiner.snapshot_message(END)
    return joiner


def a_feed_in_any_order_gives_the_market_of_the_feed():
    feed = list(enumerate(payloads(generated()), 1))
    for seed in range(2):
        order = feed + feed[:500]
        random.Random(seed).shuffle(order)
        with Joiner(len(feed)) as joiner:
            for number, payload in order[:10000]:
                joiner.live_message(number, payload)
            joiner.snapshot_message(END)
            for number, payload in order[10000:]:
                joiner.live_message(number, payload)
            yield from differs("the snapshot", joiner.snapshot(), Day.of(generated()).snapshot())
            yield from differs("the numbers", (joiner.next_number, joiner.waiting), (20001, 0))


def a_joiner_goes_on_from_each_snapshot():
    for after in (0, 51, 20000):
        with Joiner(0) as joiner:
            steps = [joiner.snapshot_message(payload) for payload in payloads(Day.of(generated()).snapshot(after=after).data)]
            yield from differs("the steps of a snapshot", (set(steps[:-1]) <= {Step.MORE}, steps[-1]), (True, Step.JOINED))
            yield from differs("the next number", joiner.next_number, after + 1)
            steps = [joiner.live_message(number, payload) for number, payload in enumerate(payloads(generated()), 1)]
            yield from differs("the steps of a feed", steps, [Step.OLD] * after + [Step.APPLIED] * (20000 - after))
            yield from differs("the snapshot", joiner.snapshot().data, program("snap", day=generated())[1])


def each_message_has_its_answer():
    with Joiner(2) as joiner:
        live, loaded = joiner.live_message, joiner.snapshot_message
        steps = [(live, 3, FEED[2], Step.KEPT), (live, 3, FEED[2], Step.KEPT), (loaded, FEED[0], Step.MORE), (loaded, FEED[1], Step.MORE),
                 (loaded, END_AT_3, Step.JOINED), (live, 1, FEED[0], Step.OLD), (live, 5, FEED[4], Step.KEPT),
                 (live, 4, FEED[3], Step.APPLIED)]
        for call, *words, wanted in steps:
            yield from differs(f"{call.__name__} of {words}", call(*words), wanted)
        yield from differs("resume", joiner.resume(), Step.APPLIED)
        yield from differs("the next number", (joiner.next_number, joiner.waiting, joiner.order_count()), (6, 0, 3))


def a_joiner_of_some_locates_leaves_the_others():
    for only, words in (([1, 7], "1,7"), ([], None)):
        with joined(only=only) as joiner:
            for number, payload in enumerate(payloads(generated()), 1):
                joiner.live_message(number, payload)
            wanted = program("snap", "--only", words, day=generated())[1] if words else common.file("START") + joiner.snapshot().data[-23:]
            yield from differs(f"{only}", joiner.snapshot().data, wanted)
            yield from differs(f"{only} of it", joiner.snapshot(only=[60000]).data, common.file("START") + joiner.snapshot().data[-23:])


def a_joiner_refuses_with_a_reason():
    with Joiner(1) as joiner:
        yield from differs("a first that waits", joiner.live_message(2, FEED[1]), Step.KEPT)
        yield from differs("a second that waits", refusal(joiner.live_message, 3, FEED[2]), ("FULL", 1, None))
        yield from differs("other bytes", refusal(joiner.live_message, 2, FEED[2]), ("CONFLICT", 0, None))
        for number in (0, 10**19, 2**64 - 1):
            yield from differs(f"number {number}", refusal(joiner.live_message, number, FEED[0]), ("BAD_MESSAGE_NUMBER", 0, None))
        yield from differs("before it has joined", [refusal(call) for call in (lambda: joiner.next_number, joiner.snapshot, joiner.resume)],
                           [("NOT_JOINED", 0, None)] * 3)
        yield from differs("a look-up before that", refusal(joiner.best, 1, "B"), ("WRONG_HANDLE", 0, None))
        joiner.snapshot_message(END)
        yield from differs("a second snapshot", refusal(joiner.snapshot_message, END), ("ALREADY_JOINED", 0, None))
    for waiting in (-1, 2**64):
        yield from differs(f"{waiting} that wait", raised(Joiner, waiting), "ValueError")
    yield from differs("a locate", raised(Joiner, 0, only=[65536]), "ValueError")


def a_joiner_halts_at_a_message_that_is_refused():
    with joined(5) as joiner:
        for number, payload in enumerate(FEED[:3], 1):
            joiner.live_message(number, payload)
        joiner.live_message(5, FEED[3])
        for _ in range(2):
            try:
                yield f"an order again is {joiner.live_message(4, FEED[2])}"
            except Refused as refused:
                yield from differs("the reason", (refused.reason, refused.number, refused.cause),
                                   (Reason.HALTED, 4, Reason.DUPLICATE_REFERENCE))
                yield from differs("its words", str(refused), "message 4: halted: duplicate reference")
        yield from differs("resume", refusal(joiner.resume), ("HALTED", 0, 4))
        yield from differs("the market before it", joiner.snapshot().data, common.file("START AAPL BUY_1 END_4"))


def a_bad_snapshot_may_begin_again():
    with Joiner(5) as joiner:
        joiner.live_message(3, FEED[2])
        joiner.snapshot_message(FEED[1])
        for _ in range(2):
            refused = refusal(joiner.snapshot_message, common.file("MSFT_AT_1")[2:])
            yield from differs("a message that breaks a rule", refused, ("BAD_SNAPSHOT", 0, 2))
        joiner.restart()
        yield from differs("what waits", joiner.waiting, 1)
        steps = [joiner.snapshot_message(it) for it in (*FEED[:2], END_AT_3)]
        yield from differs("another one", steps, [Step.MORE, Step.MORE, Step.JOINED])
        yield from differs("the market", joiner.snapshot().data, common.file("START AAPL BUY_1 END_4"))


def a_closed_joiner_refuses_each_call():
    joiner = joined()
    joiner.close()
    calls = [lambda: joiner.live_message(1, FEED[0]), lambda: joiner.snapshot_message(END), joiner.restart, joiner.resume,
             lambda: joiner.next_number, lambda: joiner.waiting, joiner.snapshot, joiner.levels, lambda: joiner.best(1, "B")]
    for at, call in enumerate(calls):
        yield from differs(f"call {at}", refusal(call), ("WRONG_HANDLE", 0, None))


def a_joiner_is_looked_up_as_a_market():
    with joined() as joiner, Market() as market:
        for number, payload in enumerate(payloads(generated()), 1):
            joiner.live_message(number, payload)
        market.apply_blocks(generated())
        yield from differs("orders", list(joiner.orders()), list(market.orders()))
        yield from differs("levels", list(joiner.levels(7)), list(market.levels(7)))
        yield from differs("the best", joiner.best(7, "B"), market.best(7, "B"))


RUNS = [a_feed_in_any_order_gives_the_market_of_the_feed, a_joiner_goes_on_from_each_snapshot, each_message_has_its_answer,
        a_joiner_of_some_locates_leaves_the_others, a_joiner_refuses_with_a_reason, a_joiner_halts_at_a_message_that_is_refused,
        a_bad_snapshot_may_begin_again, a_closed_joiner_refuses_each_call, a_joiner_is_looked_up_as_a_market]
