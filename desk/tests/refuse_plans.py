"""Refuses each plan of the desk in a browser with each refusal, while it is rehearsed and while it is carried out:
refuse_plans.py OFFICE PROGRAM. The office is the sample school. It needs Flask, and prints what is not as it must
be."""
import datetime
import html
import pathlib
import re
import sys
import time
from concurrent.futures import ThreadPoolExecutor
from unittest import mock

DESK = pathlib.Path(__file__).resolve().parent.parent
sys.path.insert(0, str(DESK))
from exam_desk import changing, lodging, refusals  # noqa: E402
from exam_desk.listed import OF_THE_OFFICE  # noqa: E402
from exam_desk.office import Office  # noqa: E402
from exam_desk.running import Ran  # noqa: E402
from exam_desk.workbook.values import Way  # noqa: E402
from exam_web import application, brought, desk, guard, proposals, wording  # noqa: E402

WHO, MONDAY = {"number": "0001051"}, {"session": "MON-AM"}
FORMS = {  # a form of each plan that the sample school takes, and the page that it stands on
    "withdraw": ("/candidates/1051", {**WHO, "paper": "PH-1", "key": "PH-1"}),
    "reinstate": ("/candidates/1051", {**WHO, "paper": "EN-1", "key": "EN-1"}),
    "enter": ("/candidates/1051", {**WHO, "paper": "CH-1"}),
    "arrangement": ("/candidates/1051", {**WHO, "needs": "quiet", "extra": "25"}),
    "code": ("/candidates/1051", WHO),
    "name": ("/candidates/1051", {**WHO, "name": "Berg, Ada"}),
    "candidate": ("/candidates", {"number": "0009001", "name": "Ann"}),
    "lodge": ("/candidates/1051", {**WHO, "session": "TUE-AM", "kind": "hall", "wanted_hall": "AULA"}),
    "decide": ("/appeals/1051/D1", {**WHO, "ref": "D1", "outcome": "refused"}),
    "open": ("/sessions/MON-AM", {**MONDAY, "hall": "R14", "desks": "3", "until": "14:00"}),
    "close": ("/sessions/MON-AM", {**MONDAY, "lost": "GYM", "key": "GYM"}),
    "session": ("/sessions/MON-AM", {**MONDAY, "at": "MON-AM", "date": "2027-06-09", "start": "10:00"}),
    "paper": ("/papers/CS-1", {"at": "MON-AM", "paper": "CS-1", "session": "TUE-AM", "title": "x", "minutes": "60"}),
    "hall": ("/sessions/MON-AM/halls/GYM", {"at": "MON-AM", "hall": "GYM", "title": "x"}),
    "files": ("/files", {"upload": "files"}),
    "second": ("/clashes/MON-AM/1051", {**WHO, **MONDAY, "paper": "LAT", "start": "11:00", "hall": "R14"}),
    "second-back": ("/candidates/1306", {"number": "0001306", "paper": "MA-2", "key": "MA-2"}),
}
FIELDS = {("open", 7): "hall", ("open", 20): "desks", ("close", 25): "lost", ("lodge", 8): "wanted_hall",
          ("lodge", 20): "session", ("enter", 5): "paper", ("paper", 20): "session"}  # beside which a refusal stands
wrong, tries = [], []


class Browser:
    def __init__(self, office):
        self.app = application.make(desk.Desk(office, "127.0.0.1:1", "", False))
        self.client = self.app.test_client()
        self.visit = guard.Visit("ab", "mark")
        self.app.extensions["guard"].visits[guard.digest("secret")] = self.visit
        self.client.set_cookie("localhost", "desk", "secret")
        self.visit.uploads["files"] = brought.Upload(Way(), texts={"halls": b"hall,title,features\nR20,x,-\n",
                                                      "entries": b"number,paper\n0001051,CH-1\n"})

    def post(self, path, values):
        return self.client.post(path, data={"mark": self.visit.mark, **values},
                                headers={"Origin": "http://127.0.0.1:1"})


def sentence(number):
    said = refusals.SENTENCES[number]
    return wording.LANGUAGES["en"].get(said, said)


def holds(right, what):
    tries.append(what)
    if not right:
        wrong.append(what)


def shown(answer):
    return re.sub(r"\s+", " ", answer.get_data(True).replace("&#39;", "'"))


def refused(browser, what, number):
    """The plan is refused while it is rehearsed: in words, at the field that they are about, else on a page that does
    nothing."""
    page, values = FORMS[what]
    line = f"refused {number}"
    ran = Ran(1, "", line + "\n")
    lodged = changing.Answered(changing.Step(("lodge",)), ran, browser.app.extensions["desk"].office)
    with (mock.patch.object(changing.running, "run_over", return_value=ran),
          mock.patch.object(lodging, "lodge", return_value=lodged)):
        answer = browser.post(f"/propose/{what}", values)
    at_field = answer.status_code == 422
    text = shown(answer if at_field else browser.client.get(answer.headers["Location"]))
    holds(sentence(number) in text, f"{what} {number} is not in words")
    holds(line not in text, f"{what} {number} shows its code")
    holds(("aria-invalid" in text or 'class="fault"' in text) if at_field else "/do" not in text,
          f"{what} {number} stands at no field, or could be done")
    holds(not (at_field and number in OF_THE_OFFICE), f"{what} {number} is of the office, and stands at a field")
    field = FIELDS.get((what, number), "")
    holds(f'href="#at-{what}-{field}' in text or not field, f"{what} {number} does not stand at {field}")


def refused_late(browser, what):
    """The plan is refused while it is carried out, after a good rehearsal."""
    _, values = FORMS[what]
    answer = browser.post(f"/propose/{what}", values)
    said = re.findall("Nothing was done[^<]*", shown(answer))
    holds(answer.status_code == 303, f"{what} cannot be rehearsed: {said}")
    if answer.status_code != 303:
        return
    page = answer.headers["Location"]
    while "refresh" in shown(browser.client.get(page)):
        pass
    leads_back(browser, what, page)
    ran = Ran(1, "", "refused 22\n")
    lodged = changing.Answered(changing.Step(("lodge",)), ran, browser.app.extensions["desk"].office)
    with (mock.patch.object(changing, "run_patiently", return_value=ran),
          mock.patch.object(lodging, "lodge", return_value=lodged)):
        browser.post(f"{page}/do", confirmed(browser, page))
    text = shown(browser.client.get(page))
    holds("It was refused, and the office is as it was" in text and sentence(22) in text and "/do" not in text,
          f"{what} refused late: {text[-300:]}")


def confirmed(browser, page):
    """What the form of a rehearsal sends."""
    return {"tick": "1", "seen": re.search('name="seen" value="([^"]+)"', shown(browser.client.get(page)))[1]}


def leads_back(browser, what, page):
    """*Not now* leads to the form as it was left: its place is called as the plan, and after the row that has it."""
    back, place = re.search('<p class="crumbs"><a href="([^"#]+)#([^"]+)"', shown(browser.client.get(page))).groups()
    key = FORMS[what][1].get("key")
    holds(place == (f"{what}-{key}" if key else what), f"{what} leads back to {place}")
    text = shown(browser.client.get(html.unescape(back)))
    holds("The form is as you left it" in text, f"{what} leads back to a page that does not say so")
    holds((found := text.count(f'id="{place}"')) == 1, f"the page of {what} has {place} {found} times")


def done_once(browser):
    """Of two clicks at one moment the second waits, and does nothing then."""
    page = browser.post("/propose/enter", FORMS["enter"][1]).headers["Location"]
    began, work, form = [], proposals.work, confirmed(browser, page)

    def slow(*words):
        began.append(words)
        time.sleep(0.5)
        work(*words)
    with mock.patch.object(proposals, "work", slow), ThreadPoolExecutor(2) as threads:
        for _ in range(2):
            threads.submit(browser.post, f"{page}/do", form)
    holds(len(began) == 1, f"a plan is done {len(began)} times")


def main():
    office = Office(sys.argv[1], sys.argv[2], lambda: datetime.date(2027, 5, 1), "tester")
    browser = Browser(office)
    if missing := set(proposals.PLANS) - set(FORMS):
        wrong.append(f"no form for {missing}")
    numbers = [*refusals.SENTENCES] if "--all" in sys.argv else [1, 5, 7, 8, 20, 22, 23, 24, 25, 27]
    for what in FORMS:
        browser.client.get(FORMS[what][0])
        for number in numbers:
            refused(browser, what, number)
        refused_late(browser, what)
    done_once(browser)
    print("\n".join([*wrong, f"{len(FORMS)} plans, {len(tries)} looks, {len(wrong)} bad"]))


main()
