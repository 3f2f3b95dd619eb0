// Texts with values in them, days and times as a candidate reads them, and titles.
import { LANGUAGE, TEXTS } from "./texts.js";

/** The text with each {name} replaced by its value. */
export function fill(text, values) {
  return text.replace(/\{(\w+)\}/g, (whole, name) => (Object.hasOwn(values, name) ? String(values[name]) : whole));
}

/** The text with a ? for each control character, direction mark and line separator. */
export function plain(text) {
  return text.replace(/[\u0000-\u001f\u007f-\u009f\u061c\u200e\u200f\u2028-\u202e\u2066-\u2069]/g, "?");
}

/** `2027-06-07` in words. */
export function dayText(day) {
  const parts = { weekday: "short", day: "numeric", month: "long", year: "numeric", timeZone: "UTC" };
  return new Date(`${day}T00:00:00Z`).toLocaleDateString(LANGUAGE, parts);
}

/** Whether a day is over, by the clock of the device: words alone depend on it. */
export function isOver(day) {
  return day < new Date().toLocaleDateString("sv"); // Swedes write days as the office does
}

/** `24:30` is half past midnight on the next day. */
export function timeText(time) {
  const [hours, minutes] = time.split(":");
  if (hours < 24) return time;
  return fill(TEXTS.nextDay, { time: `${String(hours - 24).padStart(2, "0")}:${minutes}` });
}

/** The code, time and day of a session, in this order: the end is cut where a list has no room. */
export function sessionText(date, start, code) {
  return fill(TEXTS.sessionAt, { code, time: timeText(start), day: dayText(date) });
}

/** `screen+reader` and 25 in words; no word where there is neither. */
export function arrangementText(needs, extra) {
  const words = needs === "-" ? [] : needs.split("+").map((feature) => TEXTS[feature] ?? feature);
  if (Number(extra) > 0) words.push(fill(TEXTS.extraTime, { extra }));
  return words.join("; ");
}

/** The titles of papers and halls by code, and the days of sessions. Where one is missing the code is shown. */
export class Titles {
  #of = { papers: new Map(), halls: new Map(), sessions: new Map() };

  /** Takes what `office titles` wrote. */
  take(json) {
    for (const kind of Object.keys(this.#of)) {
      this.#of[kind] = new Map(Object.entries(json?.[kind] ?? {}));
    }
  }

  paper(code) {
    return this.#titled("papers", code);
  }

  hall(code) {
    return this.#titled("halls", code);
  }

  day(code) {
    return this.#of.sessions.get(code)?.date;
  }

  /** The code, time and day of a session, or the code alone. */
  session(code) {
    const { date, start } = this.#of.sessions.get(code) ?? {};
    return date && start ? sessionText(date, start, code) : code;
  }

  #titled(kind, code) {
    const title = this.#of[kind].get(code);
    return typeof title === "string" ? fill(TEXTS.titled, { title: plain(title), code }) : code;
  }
}
