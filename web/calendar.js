// A calendar file of a candidate's exams, by RFC 5545. Its times have no zone: they are those of the clock in the hall.
import { TEXTS } from "./texts.js";
import { fill, plain } from "./wording.js";

const LINE = 75; // octets of a line, without its end

/**
 * @param {string} number the candidate's
 * @param {object[]} seats as the office answers them
 * @param {string} host the name of this site, so that the events of two schools differ
 * @param {string} asOf when the office answered, as a candidate reads it
 * @param {{paper: (code: string) => string, hall: (code: string) => string}} named titles
 */
export function calendarFile(number, seats, host, asOf, named) {
  const stamp = `${digits(new Date().toISOString().slice(0, 19))}Z`;
  const events = seats.map((seat) => [
    "BEGIN:VEVENT",
    `UID:${seat.session}-${number}@${host}`,
    `DTSTAMP:${stamp}`,
    `DTSTART:${localTime(seat.date, seat.start)}`,
    `DTEND:${localTime(seat.date, seat.finish)}`,
    `SUMMARY:${escaped(fill(TEXTS.eventTitle, { paper: named.paper(seat.paper) }))}`,
    ...place(seat, asOf, named),
    "END:VEVENT",
  ]);
  const head = ["BEGIN:VCALENDAR", "VERSION:2.0", "PRODID:-//examoffice//My exam seats//EN"];
  return [...head, ...events.flat(), "END:VCALENDAR"].map((line) => `${folded(line)}\r\n`).join("");
}

function place(seat, asOf, named) {
  if (seat.hall === null) return [`DESCRIPTION:${escaped(fill(TEXTS.eventNoHall, { time: asOf }))}`];
  const note = fill(TEXTS.eventNote, { desk: seat.desk, time: asOf });
  return [`LOCATION:${escaped(named.hall(seat.hall))}`, `DESCRIPTION:${escaped(note)}`];
}

/** A finish can pass midnight: 24:30 is half past midnight. */
function localTime(day, time) {
  const [hours, minutes] = time.split(":").map(Number);
  const at = new Date(`${day}T00:00:00Z`);
  at.setUTCMinutes(hours * 60 + minutes);
  return digits(at.toISOString().slice(0, 19));
}

const digits = (time) => time.replace(/[-:]/g, "");

const escaped = (text) => plain(text).replace(/[\\;,]/g, "\\$&");

/** The line in parts of 75 octets at most, each but the first behind a space; no character is parted. */
function folded(line) {
  const octets = new TextEncoder();
  let room = LINE;
  let text = "";
  for (const character of line) {
    const size = octets.encode(character).length;
    if (size > room) {
      text += "\r\n ";
      room = LINE - 1;
    }
    text += character;
    room -= size;
  }
  return text;
}
