"""The worst scenarios that are known, for bench/hostile. What each asks for is said in its description.

Where a program asks for work by the numbers that it holds, its case is sized by what it asks for, which the description says: what a step costs
is in proportion to the nodes that it evaluates and the bytes that it copies, and a scenario may have some 50,000 such steps.
"""
import json

MOST_BYTES = 16777216
MOST_EVENTS = 100000
MOST_UNITS = 20
HIGHEST = 9223372036854775807
HIGHEST_LIMIT = 4294967295

CASES = {}


class Case:
    """A case, and how it may end."""

    def __init__(self, make, command, statuses, units):
        self.name = make.__name__
        self.make = make
        self.command = command
        self.statuses = statuses
        self.units = units


def case(command="script", statuses=(0,), units=MOST_UNITS):
    """Notes a function that makes the text of a scenario, or of a scenario and a report, or of a source, at a part of the full size."""

    def note(make):
        CASES[make.__name__] = Case(make, command, statuses, units)
        return make

    return note


class Scenario:
    """The text of a scenario, event by event."""

    def __init__(self):
        self.events = []

    def add(self, *events):
        self.events.extend(json.dumps(event, separators=(",", ":")) for event in events)

    def text(self):
        return "[" + ",".join(self.events) + "]"


def txn(*operations):
    return ["txn", [], list(operations), []]


def put(key, value="", lease=0):
    return ["put", key, value, lease]


def add_history(scenario, count, end=False):
    """Transactions of 128 puts of the same 256 keys, as many as fit a scenario beside little else; with `end` the last one puts the key w."""
    for number in range(count):
        scenario.add(txn(*(put(f"{(number * 128 + place) % 256:x}") for place in range(128))))
    if end:
        scenario.add(txn(put("w")))


def loops(turns, body):
    """So many turns of a loop in a loop, nine in ten of which run a body. The loops have the last two variables."""
    return ["for", 14, turns // 10, 1000, [["for", 15, 9, 9, body]]]


# watchers


@case()
def ranges_of_other_keys(part):
    """50,000 watchers of ranges beside 49,000 puts of keys in none of them."""
    scenario = Scenario()
    for number in range(int(50000 * part)):
        scenario.add(["watch_range", f"a{number}", f"a{number}0", 0])
    for number in range(int(49000 * part)):
        scenario.add(txn(put(f"z{number % 10}")))
    return scenario.text()


@case()
def ranges_beside_many_puts(part):
    """90,000 watchers of ranges beside 601,000 puts of keys between them, 128 in a transaction."""
    scenario = Scenario()
    count = int(90000 * part)
    scenario.add(*(["watch_range", f"{number:05x}", f"{number:05x}0", 0] for number in range(count)))
    for number in range(int(4700 * part)):
        scenario.add(txn(*(put(f"{(number * 128 + place) * 2654435761 % count:05x}1") for place in range(128))))
    return scenario.text()


@case()
def ranges_of_the_changed_key(part):
    """50,000 watchers of one range beside 49,000 puts of a key in it."""
    scenario = Scenario()
    scenario.add(*[["watch_range", "a", "b", 0]] * int(50000 * part))
    scenario.add(*[txn(put("aa"))] * int(49000 * part))
    return scenario.text()


@case()
def watchers_of_one_key(part):
    """50,000 watchers of a key beside 49,000 puts of it."""
    scenario = Scenario()
    scenario.add(*[["watch_key", "k", 0]] * int(50000 * part))
    scenario.add(*[txn(put("k"))] * int(49000 * part))
    return scenario.text()


@case()
def watchers_yet_to_start(part):
    """50,000 watchers of a key, from a revision on that never comes, beside 49,000 puts of it."""
    scenario = Scenario()
    scenario.add(*[["watch_key", "k", HIGHEST]] * int(50000 * part))
    scenario.add(*[txn(put("k"))] * int(49000 * part))
    return scenario.text()


@case()
def ranges_yet_to_start(part):
    """90,000 watchers of a range, from a revision on that never comes, beside 690,000 puts of keys in it."""
    scenario = Scenario()
    scenario.add(*[["watch_range", "0", "g", HIGHEST]] * int(90000 * part))
    add_history(scenario, int(5400 * part))
    return scenario.text()


@case()
def polls_of_idle_watchers(part):
    """46,700 watchers of keys, each polled after 768,000 puts of others."""
    scenario = Scenario()
    count = int(46700 * part)
    scenario.add(*(["watch_key", f"w{number}", 0] for number in range(count)))
    add_history(scenario, int(6000 * part))
    scenario.add(*(["poll", number + 1, 1] for number in range(count)))
    return scenario.text()


@case()
def polls_of_ready_watchers(part):
    """46,700 watchers of keys that are put once, each polled after 704,000 puts of others."""
    scenario = Scenario()
    count = int(46700 * part)
    scenario.add(*(["watch_key", f"w{number}", 0] for number in range(count)))
    for number in range(0, count, 128):
        scenario.add(txn(*(put(f"w{place}") for place in range(number, min(number + 128, count)))))
    add_history(scenario, int(5500 * part))
    scenario.add(*(["poll", number + 1, 1] for number in range(count)))
    return scenario.text()


@case()
def polls_of_no_revision(part):
    """A watcher with one pending event, after 857,000 puts of other keys, polled 93,000 times for none."""
    scenario = Scenario()
    add_history(scenario, int(6700 * part), end=True)
    scenario.add(["watch_key", "w", 1])
    scenario.add(*[["poll", 1, 0]] * int(93000 * part))
    return scenario.text()


@case()
def watches_from_the_past(part):
    """93,000 watchers of a key that was never put, from the first revision on, after 768,000 puts of others."""
    scenario = Scenario()
    add_history(scenario, int(6000 * part))
    scenario.add(*[["watch_key", "w", 1]] * int(93000 * part))
    return scenario.text()


@case()
def ranges_from_the_past(part):
    """93,000 watchers of a range that never had a key, from the first revision on, after 729,000 puts of others."""
    scenario = Scenario()
    add_history(scenario, int(5700 * part))
    scenario.add(*[["watch_range", "w", "x", 1]] * int(93000 * part))
    return scenario.text()


@case()
def late_ranges_from_the_past(part):
    """93,000 watchers of ranges of one key each, all put late among 600,000 keys in no order, from the first revision on."""
    scenario = Scenario()
    count = int(4600 * part) * 128
    keys = [f"{number * 2654435761 % 2**20:05x}" for number in range(count)]
    for number in range(0, count, 128):
        scenario.add(txn(*(put(key) for key in keys[number : number + 128])))
    late = keys[-count // 30 :]
    for number in range(int(93000 * part)):
        key = late[number % len(late)]
        scenario.add(["watch_range", key, key + "0", 1])
    return scenario.text()


@case()
def ranges_before_a_large_revision(part):
    """A lease with 588,800 keys that is revoked, and 90,000 watchers, from that revision on, of the range that has the last of them."""
    scenario = Scenario()
    count = int(4600 * part)
    scenario.add(["grant", 1, 5])
    for number in range(0, count * 128, 128):
        scenario.add(txn(*(put(f"{place:05x}", "", 1) for place in range(number, number + 128))))
    scenario.add(["revoke", 1])
    last = f"{count * 128 - 1:05x}"
    scenario.add(*[["watch_range", last, last + "0", count + 2]] * int(90000 * part))
    return scenario.text()


@case()
def leases_before_ranges(part):
    """33,000 leases with a key each that expire at once, before as many watchers of ranges of one key each, all polled."""
    scenario = Scenario()
    count = int(33000 * part)
    scenario.add(*(["grant", number + 1, 5] for number in range(count)))
    for number in range(0, count, 100):
        scenario.add(txn(*(put(f"l{place}", "", place + 1) for place in range(number, min(number + 100, count)))))
    scenario.add(*(["watch_range", f"l{number}", f"l{number}0", 0] for number in range(count)))
    scenario.add(["advance", 5])
    scenario.add(*(["poll", number + 1, 9] for number in range(count - count // 100 - 2)))
    return scenario.text()


def add_watched_lease(scenario, part, keys, event):
    """A lease with so many keys that is revoked, and 46,000 watchers, which the event makes of the last ones in falling order, all polled."""
    keys, count = int(keys * part), int(46000 * part)
    scenario.add(["grant", 1, 5])
    for number in range(0, keys, 128):
        scenario.add(txn(*(put(f"{place:05x}", "", 1) for place in range(number, min(number + 128, keys)))))
    scenario.add(*(event(f"{keys - 1 - number:05x}") for number in range(count)))
    scenario.add(["revoke", 1])
    scenario.add(*(["poll", number + 1, 1] for number in range(count)))


@case()
def polls_of_a_large_revision(part):
    """A lease with 550,000 keys that is revoked, and 46,000 watchers of one of them each, all polled."""
    scenario = Scenario()
    add_watched_lease(scenario, part, 550000, lambda key: ["watch_key", key, 0])
    return scenario.text()


@case()
def polls_of_ranges_in_a_large_revision(part):
    """A lease with 500,000 keys that is revoked, and 46,000 watchers of ranges that have one of them each, all polled."""
    scenario = Scenario()
    add_watched_lease(scenario, part, 500000, lambda key: ["watch_range", key, key + "0", 0])
    return scenario.text()


def add_wide_transactions(scenario, count, event):
    """Transactions of 128 puts, the last one of the key w, and 1,000 watchers, which the event makes, each polled for all of them."""
    for number in range(count):
        scenario.add(txn(*(put(f"{(number * 127 + place) % 256:x}") for place in range(127)), put("w")))
    scenario.add(*[event] * 1000)
    scenario.add(*(["poll", number + 1, count] for number in range(1000)))


@case()
def batches_of_wide_transactions(part):
    """1,000 watchers of a key in each of 1,500 transactions of 128 puts, each polled for all: 1,500,000 events are written."""
    scenario = Scenario()
    add_wide_transactions(scenario, int(1500 * part), ["watch_key", "w", 1])
    return scenario.text()


@case()
def batches_of_ranges_of_wide_transactions(part):
    """1,000 watchers of a range with a key in each of 1,500 transactions of 128 puts, each polled for all: 1,500,000 events are written."""
    scenario = Scenario()
    add_wide_transactions(scenario, int(1500 * part), ["watch_range", "w", "x", 1])
    return scenario.text()


# compactions


def add_compactions(scenario, count):
    """Puts of a key, after each a compaction at its revision, where the store was at 1."""
    for number in range(count):
        scenario.add(txn(put("k")), ["compact", number + 2])


@case()
def compactions_behind_each_put(part):
    """49,000 puts of a key, after each a compaction at its revision."""
    scenario = Scenario()
    add_compactions(scenario, int(49000 * part))
    return scenario.text()


@case(command="check")
def compactions_that_are_checked(part):
    """49,000 puts of a key, after each a compaction at its revision, and their report: a check drops nothing."""
    scenario = Scenario()
    add_compactions(scenario, int(49000 * part))
    return scenario.text()


@case()
def compactions_beside_watchers(part):
    """48,000 watchers of keys that are never put, beside 25,000 puts of another, after each a compaction at its revision."""
    scenario = Scenario()
    scenario.add(*(["watch_key", f"w{number}", 0] for number in range(int(48000 * part))))
    add_compactions(scenario, int(25000 * part))
    return scenario.text()


@case()
def compaction_of_a_long_history(part):
    """One compaction that drops 768,000 puts of 256 keys, and 90,000 that are refused after it."""
    scenario = Scenario()
    count = int(6000 * part)
    add_history(scenario, count)
    scenario.add(*[["compact", count + 1]] * (1 + int(90000 * part)))
    return scenario.text()


@case()
def polls_of_lost_watchers(part):
    """49,000 watchers of a key that is put twice, all of them lost by a compaction, and a poll of each."""
    scenario = Scenario()
    count = int(49000 * part)
    scenario.add(*[["watch_key", "k", 0]] * count)
    scenario.add(txn(put("k")), txn(put("k")), ["compact", 3])
    scenario.add(*(["poll", number + 1, 9] for number in range(count)))
    return scenario.text()


# leases


@case(command="check")
def leases_one_by_one(part):
    """45,000 leases with a key each that expire one by one."""
    scenario = Scenario()
    count = int(45000 * part)
    scenario.add(*(["grant", number + 1, number + 1] for number in range(count)))
    for number in range(0, count, 100):
        scenario.add(txn(*(put(f"l{place}", "", place + 1) for place in range(number, min(number + 100, count)))))
    scenario.add(*(["advance", number + 1] for number in range(count)))
    return scenario.text()


@case(command="check")
def leases_that_stay(part):
    """49,000 leases that do not expire, beside 24,500 advances and as many renewals."""
    scenario = Scenario()
    count = int(49000 * part)
    scenario.add(*(["grant", number + 1, 9000000000] for number in range(count)))
    for number in range(count // 2):
        scenario.add(["advance", number], ["keep", 1])
    return scenario.text()


@case(command="check")
def lease_of_many_keys(part):
    """A lease with 742,000 keys, put in falling order, that is revoked."""
    scenario = Scenario()
    scenario.add(["grant", 1, 5])
    for number in range(int(5800 * part)):
        scenario.add(txn(*(put(f"{16000000 - number * 128 - place:x}", "", 1) for place in range(128))))
    scenario.add(["revoke", 1])
    return scenario.text()


@case(command="check")
def keys_between_leases(part):
    """4,096 keys that are put 768,000 times, on two leases in turn, which then expire."""
    scenario = Scenario()
    scenario.add(["grant", 1, 5], ["grant", 2, 5])
    for number in range(int(6000 * part)):
        scenario.add(txn(*(put(f"{(number * 128 + place) % 4096:x}", "", 1 + number % 2) for place in range(128))))
    scenario.add(["advance", 5])
    return scenario.text()


# transactions


@case(command="check")
def long_keys_in_a_list(part):
    """Two lists of 128 puts whose keys have 60,000 bytes and differ at the last ones."""
    front = "x" * int(60000 * part)
    puts = [put(f"{front}{number:03}") for number in range(128)]
    scenario = Scenario()
    scenario.add(["txn", [], puts, puts])
    return scenario.text()


@case(command="check")
def short_keys_in_each_list(part):
    """4,200 transactions of 128 puts and of 128 deletions."""
    puts = [put(f"{number:x}") for number in range(128)]
    deletions = [["del", f"{number:x}"] for number in range(128)]
    scenario = Scenario()
    scenario.add(*[["txn", [], puts, deletions]] * int(4200 * part))
    return scenario.text()


@case()
def refused_lists(part):
    """6,800 transactions that are refused for the last of their 128 puts."""
    puts = [put(f"{number:x}") for number in range(127)] + [put(f"{126:x}")]
    scenario = Scenario()
    scenario.add(*[txn(*puts)] * int(6800 * part))
    return scenario.text()


@case()
def distinct_keys(part):
    """742,000 keys in no order, all present at the end, which are listed in theirs."""
    scenario = Scenario()
    for number in range(int(5800 * part)):
        scenario.add(txn(*(put(f"{(number * 128 + place) * 2654435761 % 2**24:x}") for place in range(128))))
    return scenario.text()


@case()
def reads_of_the_past(part):
    """460,000 puts of 256 keys, and as many reads of these at all revisions."""
    scenario = Scenario()
    count = int(3600 * part)
    add_history(scenario, count)
    for number in range(count):
        scenario.add(txn(*(["get", f"{place:x}", 2 + number * 37 % count] for place in range(128))))
    return scenario.text()


@case(command="check")
def past_of_one_key(part):
    """50,000 puts of a key, and a read of each of its versions."""
    scenario = Scenario()
    count = int(50000 * part)
    scenario.add(*[txn(put("k"))] * count)
    scenario.add(*(txn(["get", "k", 2 + number]) for number in range(count)))
    return scenario.text()


@case(statuses=(3,))
def gets_of_a_long_value(part):
    """10,000 reads of a value of a megabyte: the report would have 10 gigabytes."""
    scenario = Scenario()
    scenario.add(txn(put("v", "x" * 1000000)))
    scenario.add(*[txn(["get", "v", 0])] * int(10000 * part))
    return scenario.text()


class FoldedHash:
    """The hash of the tables of keys, over blocks of 16 bytes: each is folded into the state by a product of two factors, which may change places."""

    MASK = 2**64 - 1
    MULTIPLIER = 0x9E3779B97F4A7C15
    START = 0x243F6A8885A308D3
    HIGH_BITS = 0x8080808080808080
    PLAIN = [byte for byte in range(0x20, 0x7F) if byte not in b'"\\']

    def __init__(self, length):
        self.state = (self.START + length) & self.MASK

    def after(self, block):
        """The state after a block."""
        front, back = int.from_bytes(block[:8], "little"), int.from_bytes(block[8:], "little")
        product = (front ^ self.state) * (back ^ self.MULTIPLIER)
        return product & self.MASK ^ product >> 64

    def twin(self, block):
        """The block whose factors are those of a block, the other way round."""
        apart = (self.state ^ self.MULTIPLIER).to_bytes(8, "little")
        return bytes(byte ^ other for byte, other in zip(block[8:] + block[:8], apart + apart))

    def next_pair(self):
        """A block and its twin, both of plain letters, after which there is such a pair again."""
        apart = (self.state ^ self.MULTIPLIER).to_bytes(8, "little") * 2
        letters = [[byte for byte in self.PLAIN if byte ^ other in self.PLAIN] for other in apart]
        trial = 0
        while True:
            trial += 1
            block = bytes(choice[trial * (3 + place) // 7 % len(choice)] for place, choice in enumerate(letters))
            state = self.after(block)
            if block != self.twin(block) and not (state ^ self.MULTIPLIER) & self.HIGH_BITS:
                pair = block, self.twin(block)
                self.state = state
                return pair


def colliding_texts(count):
    """This many texts of one hash: a block after which there is a pair of blocks, one of each of 16 pairs, and an end."""
    folded = FoldedHash(18 * 16)
    number = 0
    while (folded.after(f"{number:016}".encode()) ^ folded.MULTIPLIER) & folded.HIGH_BITS:
        number += 1
    front = f"{number:016}".encode()
    folded.state = folded.after(front)
    pairs = [folded.next_pair() for _ in range(16)]
    return [(front + b"".join(pair[number >> place & 1] for place, pair in enumerate(pairs)) + b"0" * 16).decode() for number in range(count)]


@case()
def colliding_keys(part):
    """55,000 keys whose texts have one hash in the tables of keys."""
    keys = colliding_texts(int(55000 * part))
    scenario = Scenario()
    for number in range(0, len(keys), 100):
        scenario.add(txn(*(put(key) for key in keys[number : number + 100])))
    return scenario.text()


# runners


@case(command="check")
def conflicts_of_128_reads(part):
    """A program that reads 127 keys, one of which is put before each of its 49,000 commits."""
    program = [["for", 0, 127, 127, [["set", 1, ["get", ["text_of", ["var", 0]]]]]], put("w")]
    scenario = Scenario()
    scenario.add(["start", "Serializable", HIGHEST_LIMIT, program])
    scenario.add(*[["step", 1]] * 128)
    for _ in range(int(49000 * part)):
        scenario.add(txn(put("126")), ["step", 1])
    return scenario.text()


@case(command="check")
def conflicts_of_a_list(part):
    """A program with a list of 127 keys, one of which is put before each of its 49,000 commits."""
    program = [["prefetch", [str(number) for number in range(127)]], put("w")]
    scenario = Scenario()
    scenario.add(["start", "Serializable", HIGHEST_LIMIT, program], ["step", 1])
    for _ in range(int(49000 * part)):
        scenario.add(txn(put("126")), ["step", 1])
    return scenario.text()


@case()
def long_keys_of_a_list(part):
    """Two programs with lists of 128 keys of 60,000 bytes that differ at the last ones, and their fetches."""
    front = "x" * int(60000 * part)
    program = [["prefetch", [f"{front}{number:03}" for number in range(128)]]]
    scenario = Scenario()
    for number in range(2):
        scenario.add(["start", "Serializable", 1, program], ["step", number + 1], ["step", number + 1])
    return scenario.text()


@case()
def short_keys_of_lists(part):
    """20,000 programs with lists of 128 keys, and their fetches."""
    program = [["prefetch", [f"{number:x}" for number in range(128)]]]
    scenario = Scenario()
    for number in range(int(20000 * part)):
        scenario.add(["start", "ReadCommitted", 1, program], ["step", number + 1], ["step", number + 1])
    return scenario.text()


@case()
def conflicts_beside_a_long_value(part):
    """A program that reads the revision of a key of 7 megabytes, and conflicts 20,000 times."""
    program = [["set", 0, ["rev", "v"]], ["set", 0, ["get", "w"]], put("x")]
    scenario = Scenario()
    scenario.add(txn(put("v", "x" * 7000000)), ["start", "Serializable", HIGHEST_LIMIT, program], ["step", 1], ["step", 1])
    for _ in range(int(20000 * part)):
        scenario.add(txn(put("w")), ["step", 1])
    return scenario.text()


@case()
def revisions_of_a_long_value(part):
    """30,000 programs that read the revision of a key of 8 megabytes."""
    scenario = Scenario()
    scenario.add(txn(put("v", "x" * 8000000)))
    for number in range(int(30000 * part)):
        scenario.add(["start", "Serializable", 1, [["emit", ["rev", "v"]]]], ["step", number + 1], ["step", number + 1])
    return scenario.text()


@case(command="check")
def waiting_runners(part):
    """33,000 programs that all wait, and go on in falling order."""
    scenario = Scenario()
    count = int(33000 * part)
    scenario.add(*(["start", "ReadCommitted", 9, [["put", f"a{number}", ["get", f"a{number // 2}"], 0]]] for number in range(count)))
    for _ in range(2):
        scenario.add(*(["step", count - number] for number in range(count)))
    return scenario.text()


@case(command="check")
def attempts_of_a_long_program(part):
    """A program of 4,091 nodes that conflicts 49,000 times: 200 million nodes are evaluated."""
    program = [["set", 0, 1]] * 2040 + [["set", 0, ["get", "k"]], put("w")]
    scenario = Scenario()
    scenario.add(["start", "Serializable", HIGHEST_LIMIT, program], ["step", 1])
    for _ in range(int(49000 * part)):
        scenario.add(txn(put("k")), ["step", 1])
    return scenario.text()


@case(command="check")
def reads_of_one_runner(part):
    """A program that fetches 8,900 keys, one a step."""
    key = ["cat", ["text_of", ["var", 14]], ["cat", "-", ["text_of", ["var", 15]]]]
    scenario = Scenario()
    scenario.add(["start", "ReadCommitted", 1, [loops(9900, [["set", 2, ["get", key]]])]])
    scenario.add(*[["step", 1]] * int(8911 * part))
    return scenario.text()


@case()
def commits_of_long_keys(part):
    """400 commits of 128 puts whose keys have 64,000 bytes and differ at the last ones."""
    program = [["set", 0, "x" * 1000]] + [["set", 0, ["cat", ["var", 0], ["var", 0]]]] * 6
    program += [["for", 1, 128, 128, [["put", ["cat", ["var", 0], ["text_of", ["var", 1]]], "", 0]]]]
    scenario = Scenario()
    for number in range(int(400 * part)):
        scenario.add(["start", "ReadCommitted", 1, program], ["step", number + 1])
    return scenario.text()


# what a program asks for by its numbers


@case(command="check")
def many_turns(part):
    """10,000 programs of 10,000 turns that do nothing: 100 million turns."""
    scenario = Scenario()
    for number in range(int(10000 * part)):
        scenario.add(["start", "ReadCommitted", 1, [loops(10000, [])]], ["step", number + 1])
    return scenario.text()


@case(command="check")
def one_step_of_many_nodes(part):
    """One step at both limits, 4,094 nodes in 9,000 of 10,000 turns: 37 million nodes."""
    scenario = Scenario()
    scenario.add(["start", "ReadCommitted", 1, [loops(10000, [["set", 2, ["add", ["var", 2], 1]]] * int(1022 * part))]], ["step", 1])
    return scenario.text()


@case(command="check")
def one_step_of_deep_nodes(part):
    """One step at both limits, with expressions down to depth 32."""

    def sum_of(depth):
        return ["add", sum_of(depth - 1), 1] if depth else ["var", 0]

    scenario = Scenario()
    scenario.add(["start", "ReadCommitted", 1, [loops(10000, [["set", 3, sum_of(28)]] * int(70 * part))]], ["step", 1])
    return scenario.text()


@case()
def joined_texts(part):
    """One step that makes 900,000 texts of 65,536 bytes, a tenth of what a program may ask for: 59 gigabytes."""
    program = [["set", 0, "x" * 1024]] + [["set", 0, ["cat", ["var", 0], ["var", 0]]]] * 5
    scenario = Scenario()
    scenario.add(["start", "ReadCommitted", 1, program + [loops(10000, [["set", 3, ["cat", ["var", 0], ["var", 0]]]] * int(100 * part))]], ["step", 1])
    return scenario.text()


@case()
def copies_of_a_long_value(part):
    """One step that copies a value of 8 megabytes 1,000 times."""
    scenario = Scenario()
    scenario.add(txn(put("v", "x" * 8000000)))
    program = [["set", 0, ["get", "v"]], ["for", 1, int(1000 * part), 1000, [["set", 2, ["var", 0]]]]]
    scenario.add(["start", "Serializable", 1, program], ["step", 1], ["step", 1])
    return scenario.text()


@case()
def looks_at_one_key(part):
    """One step that looks at a key 4.5 million times, all of which its commit shows."""
    scenario = Scenario()
    scenario.add(["start", "Serializable", 1, [loops(10000, [["set", 2, ["rev", "k"]]] * int(500 * part))]], ["step", 1], ["step", 1])
    return scenario.text()


@case(command="check")
def writes_of_one_key(part):
    """One step that writes a key 9 million times."""
    scenario = Scenario()
    scenario.add(["start", "Serializable", 1, [loops(10000, [put("k")] * int(1000 * part))]], ["step", 1])
    return scenario.text()


@case(statuses=(3,))
def long_texts_put_out(part):
    """One step that puts out 9 million texts of 65,536 bytes: the report would have 590 gigabytes."""
    program = [["set", 0, "x" * 1024]] + [["set", 0, ["cat", ["var", 0], ["var", 0]]]] * 6
    scenario = Scenario()
    scenario.add(["start", "ReadCommitted", 1, program + [loops(10000, [["emit", ["var", 0]]] * int(1000 * part))]], ["step", 1])
    return scenario.text()


# texts


@case(statuses=(2,))
def object_keys(part):
    """An object with a million and a half keys in no order."""
    return "[{" + ",".join(f'"{number * 2654435761 % 2**24:x}":0' for number in range(int(1500000 * part))) + "}]"


@case(statuses=(2,))
def object_keys_falling(part):
    """An object with 1,390,000 keys in falling order."""
    return "[{" + ",".join(f'"{16000000 - number:06x}":0' for number in range(int(1390000 * part))) + "}]"


@case(statuses=(2,))
def many_digits(part):
    """A number of 16 million digits."""
    return "[1" + "0" * int(16000000 * part) + "]"


@case(statuses=(2,))
def long_fraction(part):
    """A fraction of 15 million digits."""
    return "[0." + "1234567" * int(2200000 * part) + "]"


@case(statuses=(2,))
def zeros_and_an_exponent(part):
    """A fraction of 8 million zeros, times ten to the power of 8 million."""
    zeros = int(8000000 * part)
    return "[0." + "0" * zeros + f"1e{zeros + 1}]"


@case(statuses=(2,))
def hard_fractions(part):
    """21,000 fractions of 740 digits, which lie half-way between two numbers."""
    digits = "2225073858507201136057409796709131975934819546351645648023426109724822222021076945516529523908135087914149158913039621106870086438694594645527657207"
    return "[" + ",".join(["0." + digits * 5 + "e-307"] * int(21000 * part)) + "]"


@case(statuses=(2,))
def empty_arrays(part):
    """Five and a half million empty arrays."""
    return "[" + "[]," * int(5500000 * part) + "[]]"


@case(statuses=(2,))
def many_zeros(part):
    """Eight million zeros."""
    return "[" + "0," * int(8300000 * part) + "0]"


@case(statuses=(2,))
def open_brackets(part):
    """Sixteen million open brackets."""
    return "[" * int(16000000 * part)


@case(statuses=(2,))
def white_space(part):
    """Sixteen million spaces."""
    return " " * int(16777216 * part)


@case(command="check")
def escapes(part):
    """A value of 2,700,000 escapes, which the report spells as long."""
    return '[["txn",[],[["put","k","' + "\\u0001" * int(2700000 * part) + '",0]],[]]]'


@case(statuses=(2,))
def fault_of_the_last_event(part):
    """99,999 events, and one that is none."""
    scenario = Scenario()
    scenario.add(*[txn(put("k"))] * int(99999 * part), ["txn", [], [], [0]])
    return scenario.text()


@case(statuses=(2,))
def too_many_nodes(part):
    """A program of 3,000,000 nodes."""
    return '[["start","ReadCommitted",1,[' + '["emit",1],' * int(1500000 * part) + '["emit",1]]]]'


@case()
def too_many_operations(part):
    """A transaction of 1,500,000 operations, which is refused."""
    return '[["txn",[],[' + '["del",""],' * int(1500000 * part) + '["del","a"]],[]]]'


# reports


@case(command="check")
def commits_of_many_runners(part):
    """33,000 programs that commit one after the other, and the check of their report."""
    scenario = Scenario()
    for number in range(int(33000 * part)):
        program = [["put", f"a{number}", ["get", f"a{number // 2}"], 0]]
        scenario.add(["start", "ReadCommitted", 9, program], ["step", number + 1], ["step", number + 1])
    return scenario.text()


@case(command="check", statuses=(1,))
def report_of_end_lines(part):
    """A report of 1,390,000 end lines, for a scenario without events."""
    return "[]", '["end",1,0]\n' * int(1390000 * part)


@case(command="check", statuses=(1,))
def report_of_one_long_line(part):
    """A report of one line, which has 2,000,000 answers to a transaction of one."""
    return '[["txn",[],[["put","k","",0]],[]]]', '[1,"txn",true,2,[' + '["put"],' * int(2000000 * part) + '["put"]]]\n'


@case(command="check", statuses=(2,))
def report_of_empty_lines(part):
    """A report of sixteen million empty lines."""
    return "[]", "\n" * int(16777216 * part)


@case(command="check", statuses=(2,))
def report_of_brackets(part):
    """A report of one line of open brackets."""
    return "[]", "[" * int(16777215 * part) + "\n"


@case(command="check", statuses=(1,))
def report_of_one_long_trace(part):
    """A report whose commit has a trace of 1,150,000 looks at a key, for a program that looks at none."""
    looks = ",".join(['["rev","k",0]'] * int(1150000 * part))
    return '[["start","ReadCommitted",1,[]],["step",1]]', f'[1,"started",1]\n[2,"committed",1,1,1,[],[{looks}],[]]\n["end",1,1]\n'


# jobs


@case(command="threads")
def jobs_on_one_key(part):
    """99,000 jobs that count in one key, by 16 threads, with as many commits each as there may be."""
    program = [["put", "k", ["text_of", ["add", ["num_of", ["get", "k"]], 1]], 0]]
    scenario = Scenario()
    scenario.add(txn(put("k", "0")))
    scenario.add(*[["start", "Serializable", HIGHEST_LIMIT, program]] * int(99000 * part))
    return scenario.text()


@case(command="threads")
def jobs_that_give_up(part):
    """99,000 jobs on one key by 16 threads, which may send one commit each: each that gives up is looked for in the history."""
    program = [["put", "k", ["text_of", ["add", ["num_of", ["get", "k"]], 1]], 0]]
    scenario = Scenario()
    scenario.add(txn(put("k", "0")))
    scenario.add(*[["start", "Serializable", 1, program]] * int(99000 * part))
    return scenario.text()


@case(command="threads")
def jobs_that_gave_up_long_ago(part):
    """49,000 jobs of 900 turns on one key by 16 threads, which may send one commit each, before as many that put other keys."""
    program = [["set", 2, ["get", "k"]], loops(1000, [["set", 3, ["add", ["var", 3], 1]]]), ["put", "k", ["text_of", ["add", ["num_of", ["var", 2]], 1]], 0]]
    scenario = Scenario()
    scenario.add(txn(put("k", "0")))
    scenario.add(*[["start", "Serializable", 1, program]] * int(49000 * part))
    scenario.add(*(["start", "ReadCommitted", 1, [put(f"z{number % 16}")]] for number in range(int(49000 * part))))
    return scenario.text()


@case(command="threads")
def jobs_that_conflict_long(part):
    """3,000 jobs that run 900 turns between their read and their commit."""
    program = [["set", 2, ["get", "k"]], loops(1000, [["set", 3, ["add", ["var", 3], 1]]]), ["put", "k", ["text_of", ["add", ["num_of", ["var", 2]], 1]], 0]]
    scenario = Scenario()
    scenario.add(txn(put("k", "0")))
    scenario.add(*[["start", "Serializable", HIGHEST_LIMIT, program]] * int(3000 * part))
    return scenario.text()


@case(command="threads")
def long_jobs(part):
    """620 jobs of 4,093 nodes, which is all that a scenario can hold."""
    program = [["set", 0, 1]] * 2045 + [["put", "k", "", 0]]
    scenario = Scenario()
    scenario.add(*[["start", "Serializable", HIGHEST_LIMIT, program]] * int(620 * part))
    return scenario.text()


@case(command="threads")
def jobs_behind_a_history(part):
    """32,000 jobs that give up or commit after 690,000 puts of other keys."""
    program = [["put", "w", ["text_of", ["add", ["num_of", ["get", "w"]], 1]], 0]]
    scenario = Scenario()
    scenario.add(txn(put("w", "0")))
    add_history(scenario, int(5200 * part))
    scenario.add(*[["start", "Serializable", 1, program]] * int(32000 * part))
    return scenario.text()


# sources


LONG_CONSTANT = f'let c = "{"x" * 65536}"\n'


@case(command="compile", statuses=(2,))
def constant_in_a_transaction(part):
    """A constant of 65,536 bytes that 2,300,000 reads of a transaction name."""
    return LONG_CONSTANT + "txn { " + "get(c) " * int(2300000 * part) + "}"


@case(command="compile", statuses=(2,))
def constant_in_a_program(part):
    """A constant of 65,536 bytes that 2,000,000 statements of a program name."""
    return LONG_CONSTANT + "start { " + "emit(c) " * int(2000000 * part) + "}"


@case(command="compile", statuses=(2,))
def constant_in_programs(part):
    """A constant of 65,536 bytes that 1,000 programs of 2,000 statements name."""
    return LONG_CONSTANT + "".join(f"program p{number} {{ " + "emit(c) " * 2000 + "} " for number in range(int(1000 * part)))


@case(command="compile")
def constant_as_arguments(part):
    """A constant of 65,536 bytes that is an argument of a start 5,000,000 times."""
    return LONG_CONSTANT + "program p(a..) {} start p(c" + ",c" * int(5000000 * part) + ")"


@case(command="compile")
def constant_of_many_names(part):
    """A constant of 65,536 bytes that has 800,000 other names."""
    return LONG_CONSTANT + "".join(f"let b{number} = c " for number in range(int(800000 * part)))


@case(command="compile", statuses=(2,))
def values_of_many_nodes(part):
    """800,000 values of 3,000 nodes each, which are copies of one."""
    values = "let a0 = 1 + 1 " + "".join(f"let a{number + 1} = a{number} + a{number} " for number in range(9))
    return values + "".join(f"let b{number} = a9 " for number in range(int(800000 * part)))


@case(command="compile", statuses=(2,))
def escapes_of_a_source(part):
    """1,300,000 texts that are one escape."""
    return "start { " + 'emit("\\n") ' * int(1300000 * part) + "}"
