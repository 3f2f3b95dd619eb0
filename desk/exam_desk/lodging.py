"""Lodges an appeal for a candidate who is there, the candidates' way: over HTTP, with the candidate's access code."""
import contextlib
import itertools
import json
from collections.abc import Iterator, Sequence

from exam_desk import asking, beside, facts, logbook, refusals, snapshot, turns, typed
from exam_desk.asking import Serve
from exam_desk.changing import Answered, Step
from exam_desk.office import NoCandidate, Office, Trouble
from exam_desk.running import Ran

TRIES, SECONDS = 3, 60


@contextlib.contextmanager
def served(office: Office) -> Iterator[asking.Server]:
    """Where the office answers: `keep`, or a `serve` for the moment."""
    state, today = turns.keep_state(office), office.today().isoformat()
    if state and "place" in state:
        if state.get("day", today) != today:
            raise Trouble(f"`keep` serves with the day {state['day']}, and this is to be lodged on {today}: "
                          "`office keep stop`, or leave TODAY out")
        yield asking.Server(state["pid"], state["place"])
        return

    def explain(complaint: str) -> None:
        raise Trouble("; ".join([complaint, *refusals.explained(office, ["serve"], complaint)]))
    with turns.alone(office, ["lodge"]), contextlib.closing(Serve(office, office.path, explain)) as serve:
        yield serve.started()


def post(server: asking.Server, number: str, code: str, body: bytes) -> dict[str, object]:
    """The answer; asks again where none comes, which lodges nothing twice. Raises `Trouble` where none comes at all."""
    head = (f"POST /candidates/{number}/appeals HTTP/1.1\r\nHost: {asking.HOST}\r\nexam-code: {code}\r\n"
            f"Content-Length: {len(body)}\r\n\r\n")
    for _ in range(TRIES):
        with contextlib.suppress(OSError):
            answer = asking.answer(server, head.encode() + body, SECONDS)
            if asking.status_of(answer) not in (0, 502, 503, 504):
                said: dict[str, object] = json.loads(answer.partition(asking.HEAD_END)[2])
                return said
    raise Trouble("no answer: look with `office appeals SESSION` whether it is lodged, or try again")


def lodge(office: Office, words: Sequence[str]) -> Answered:
    """Lodges what NUMBER SESSION KIND VALUE .. REASON ask, in which nothing is wrong (`typed.wrong_of_lodging`), with
    lines in the log; the answer in the form of a command's. Raises `Trouble` where nothing was answered."""
    named = dict(zip(["session", "kind", *typed.APPEALS[words[2]], "reason"], words[1:]))
    values = {name: int(word) if name == "extra" else word for name, word in named.items()}
    beside.refuse_stranger(office.path)
    with snapshot.rows(office) as rows:
        code = facts.access_codes(rows).get(words[0])
        refs = {ref for ref, in rows.execute("SELECT ref FROM appeal WHERE number = ?", [int(words[0])])}
    if code is None:
        raise NoCandidate(words[0])
    ref = next(ref for place in itertools.count(1) if (ref := f"D{place}") not in refs)
    body = json.dumps({**values, "ref": ref}, ensure_ascii=False).encode()
    with logbook.logged(office, ["lodge", *words]) as outcome:
        with served(office) as server:
            answer = post(server, words[0], code, body)
        last = f" last day {answer['day']}" if "day" in answer else ""
        outcome.status = int("error" in answer)
        outcome.answer = f"refused {answer['error']}{last}" if outcome.status else f"{ref} {answer['state']}"
    ran = Ran(1, "", f"{outcome.answer}\n") if outcome.status else Ran(0, f"{words[0]} {outcome.answer}\n", "")
    return Answered(Step(("lodge", *words)), ran, office)


def grant(lodged: Answered) -> Step:
    """The step that grants an appeal which is lodged."""
    return Step(("decide", *lodged.first_line().split()[:2], "granted", ""))
