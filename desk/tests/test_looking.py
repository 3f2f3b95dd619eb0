"""What an officer looks at: a candidate with what is kept beside the office, printed sessions, a rehearsal, `keep`."""
import contextlib
import socket
import unittest

import sample
from exam_desk import notebook


class Looking(sample.SampleSchool):
    def test_a_candidate_with_the_note_and_absences(self):
        notebook.take_notes(self.value, {sample.NUMBER: "\u009brest breaks"})
        notebook.keep(self.value, "absent.MON-AM", lambda _: [sample.NUMBER])
        self.office("withdraw", sample.NUMBER, "LAT")
        self.assertIn("\n  note: ?rest breaks\n  noted as absent in MON-AM\n", self.office("look", sample.NUMBER))
        self.assertNotIn("note", self.office("look", "0001000"))

    def test_which_printed_sessions_are_out_of_date(self):
        self.assertEqual(self.office("printed"), "nobody noted that papers are printed\n")
        for session in ("TUE-AM", "MON-AM"):
            self.office("printed", session)
        self.run_office("withdraw", "0001000", "MA-1")
        self.assertEqual(self.office("printed"), "MON-AM: the papers are out of date; `office printed MON-AM --look`\n"
                                                 "TUE-AM: the papers are up to date\n")

    def test_a_rehearsal_names_twenty_of_each_kind(self):
        path = self.write("sessions.csv", "session,date,start\nMON-AM,2027-06-14,09:00\n")
        lines = self.office("what-if", "import", "sessions", path).split("\n")
        [place] = [place for place, line in enumerate(lines) if line.endswith(" sit at other times")]
        people = int(lines[place].split(" ")[0])
        self.assertEqual(lines[place + 21], f"  .. and {people - 20} more")

    def test_why_keep_does_not_begin(self):
        """Its port is taken, or the day is none, which no second try mends."""
        self.assertEqual(self.refused("keep", "start", str(sample.free_port()), TODAY="2027-05"),
                         f"office: `keep` does not run; the last line of {self.desk}/keep.log: TODAY is 2027-05; write a "
                         "date as 2027-05-30, from 2000 to 2199\n")
        for _ in range(2):
            with contextlib.closing(socket.socket()) as other:
                other.bind(("127.0.0.1", 0))
                other.listen()
                port = other.getsockname()[1]
                self.assertEqual(self.refused("keep", "start", str(port)),
                                 f"office: `keep` does not run; the last line of {self.desk}/keep.log: 127.0.0.1 {port} "
                                 "cannot be had: Address already in use\n")


if __name__ == "__main__":
    unittest.main()
