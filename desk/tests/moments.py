"""Which sessions are at one time, by sheets, minute by minute."""
import collections
import datetime
import itertools


def at_one_time(rows, seats):
    """By two sessions the candidates and the halls that are in both at one time, from the seats of each session by
    number, as the sheets have them."""
    there = collections.defaultdict(set)
    begins = {}
    for session, day, start in rows.execute("SELECT code, day, start FROM session"):
        begins[session] = datetime.date.fromisoformat(day).toordinal() * 1440 + start
        for number, seat in seats[session].items():
            hours, minutes = map(int, seat.finish.split(":"))
            for minute in range(begins[session], begins[session] - start + hours * 60 + minutes):
                there[False, number, minute].add(session)
                there[True, seat.hall, minute].add(session)
    both = collections.defaultdict(lambda: (set(), set()))
    for (is_hall, who, _), sessions in there.items():
        for pair in itertools.combinations(sorted(sessions, key=lambda code: (begins[code], code)), 2):
            if who != "-":
                both[pair][is_hall].add(who)
    order = sorted(both, key=lambda pair: [(begins[code], code) for code in pair])
    return {pair: (sorted(both[pair][0]), sorted(both[pair][1])) for pair in order}


def of_candidate(both, seats, number):
    """Of two sessions at one time what `at_one_time` gave, as far as a candidate or their halls are in both."""
    for pair, (candidates, halls) in both.items():
        own = {seats[session][number].hall for session in pair if number in seats[session]}
        found = [number] * (number in candidates), [hall for hall in halls if hall in own]
        if any(found):
            yield pair, *found
