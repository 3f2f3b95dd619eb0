"""A season over the sample school: at each event the first line on standard error is what a person must know.
`bench/season` has one of a school of 1,000."""
import re
import unittest

import sample

FILES = {
    "late.csv": "number,paper\n0001000,LAT\n",
    "moved.csv": "paper,title,session,minutes,requires\nEN-1,English language,MON-AM,90,-\n",
    "fewer.csv": "session,hall,desks,until,reserved\nMON-PM,GYM,2,16:30,no\n",
    "people.csv": "number,name,code\n0001051,Di Berg,ANOTHER2CODE\n",
    "need.csv": "number,needs,extra\n0001000,-,10\n",
    "leave.csv": "number,paper\n0001000,EN-1\n0001017,MA-1\n"}
EVENTS = [  # a command, and what it says first; `{}` stands for a number
    ("import entries late.csv", "1 has a new clash: MON-AM 0001000 Ada Lin"),
    ("import papers moved.csv", "{} have new clashes: {} in MON-AM"),
    ("back 1 --yes", "2 lose their desks: .."),  # who had one while the paper was moved
    ("import openings fewer.csv", "{} lose their desks: {} in MON-PM"),
    ("back 1 --yes", "{} get desks: {} in MON-PM"),
    ("import candidates people.csv", "1 has another access code, and a slip that opens nothing: 0001051 Di Berg"),
    ("import entries people.csv", "refused 2"),
    ("name 0001051 Berg", "1 has another name: 0001051 Berg"),
    ("import arrangements need.csv",
     "1 sits at another time (2 sessions): MON-AM 0001000 Ada Lin; MON-PM 0001000 Ada Lin"),
    ("lodge 0001051 MON-PM arrangement - 10 plaster", ""),
    ("decide 0001051 D1 standing once", "1 sits at another time (3 sessions): MON-AM 0001051 Berg; .."),
    ("close-hall TUE-AM GYM", "{} lose their desks: {} in TUE-AM"),
    ("withdraw --list leave.csv", "1 gets a desk: .."),
]


class Season(sample.SampleSchool):
    def test_the_first_line(self):
        for name, text in FILES.items():
            self.write(name, text)
        for words, first in EVENTS:
            done = self.run_office(*words.split())
            said = done.stderr.split("\n")[0]
            wanted = re.escape(first).replace(r"\{\}", r"\d+").replace(r"\.\.", ".*")
            self.assertRegex(said, rf"\A{wanted}\Z", (words, done.stderr))


if __name__ == "__main__":
    unittest.main()
