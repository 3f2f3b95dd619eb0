// What the office answered, as tables.
import { data, element, table } from "./elements.js";
import { TEXTS } from "./texts.js";
import { arrangementText, dayText, fill, isOver, sessionText, timeText } from "./wording.js";

/** Seats, clashes and appeals of one candidate, as the office answered them last; exams that are over stand last. */
export class Own {
  /**
   * @param {import("./wording.js").Titles} titles
   * @param {Date} time when the office answered the seats
   */
  constructor(titles, seats = [], clashes = [], appeals = [], time = new Date()) {
    const order = ({ date, start, session }) => `${isOver(date)} ${date} ${start} ${session}`;
    this.time = time;
    this.titles = titles;
    this.seats = [...seats].sort((one, other) => (order(one) < order(other) ? -1 : 1));
    this.clashes = clashes;
    this.appeals = appeals;
  }

  seat(session) {
    return this.seats.find((seat) => seat.session === session);
  }

  /** What is another than it was, in words: seats, with their sessions, clashes, appeals. */
  changesSince(before) {
    const differ = (one, other) => JSON.stringify(one) !== JSON.stringify(other);
    const all = new Set([...before.seats, ...this.seats].map(({ session }) => session));
    const code = [...all].filter((session) => differ(this.seat(session), before.seat(session))).join(", ");
    const lists = ["clashes", "appeals"].filter((list) => differ(this[list], before[list])).map((list) => TEXTS[list]);
    return [...(code ? [fill(TEXTS.titled, { title: TEXTS.seats, code })] : []), ...lists].join("; ");
  }

  /** The pairs of exams in two sessions that are at the same time. */
  overlaps() {
    return this.seats.flatMap((one, place) => this.seats.slice(place + 1)
      .filter(({ date, start }) => date === one.date && start < one.finish).map((other) => [one, other]));
  }

  /** Code, time and day of a session; the code alone where the day is not known. */
  sessionText(code) {
    const seat = this.seat(code);
    return seat ? sessionText(seat.date, seat.start, code) : this.titles.session(code);
  }

  /** The day of a session, if it is known. */
  day(code) {
    return this.seat(code)?.date ?? this.titles.day(code);
  }

  /** What an appeal asks, in words. */
  aboutText({ kind, subject }) {
    if (kind === "hall") return fill(TEXTS.aboutHall, { hall: this.titles.hall(subject) });
    if (kind === "clash") return fill(TEXTS.aboutClash, { paper: this.titles.paper(subject) });
    const [needs, extra] = subject.split(" ");
    return fill(TEXTS.aboutArrangement, { needs: arrangementText(needs, extra) || TEXTS.nothing });
  }
}

const none = (text) => element("p", {}, text);

export function seatTable({ seats, titles }) {
  if (seats.length === 0) return none(TEXTS.noSeats);
  return table("seats-head", [
    [TEXTS.day, ({ date }) => (isOver(date) ? fill(TEXTS.over, { day: dayText(date) }) : dayText(date))],
    [TEXTS.time, ({ start, finish }) => fill(TEXTS.times, { start, finish: timeText(finish) })],
    [TEXTS.paper, ({ paper }) => data(titles.paper(paper))],
    [TEXTS.hall, ({ hall }) =>
      hall === null ? element("span", { className: "lacking" }, TEXTS.noHall) : data(titles.hall(hall))],
    [TEXTS.desk, ({ desk }) => desk ?? null],
    [TEXTS.arrangement, ({ needs, extra }) => arrangementText(needs, extra) || null],
    [TEXTS.session, ({ session }) => element("span", { className: "code" }, session)],
  ], seats);
}

export function clashTable(own) {
  const said = ([one, other]) => fill(TEXTS.overlap, { one: own.titles.paper(one.paper), other: own.titles.paper(other.paper) });
  const overlaps = own.overlaps().map((pair) => element("p", { className: "lacking" }, said(pair)));
  if (own.clashes.length === 0) return overlaps.length ? element("div", {}, ...overlaps) : none(TEXTS.noClashes);
  return element("div", {}, ...overlaps, table("clashes-head", [
    [TEXTS.session, ({ session }) => own.sessionText(session)],
    [TEXTS.sitting, ({ sitting }) => data(own.titles.paper(sitting))],
    [TEXTS.missing, ({ paper }) => data(own.titles.paper(paper))],
  ], own.clashes));
}

/** @param {(appeal: object) => void} retract is called where the candidate presses the button of an open appeal */
export function appealTable(own, retract) {
  if (own.appeals.length === 0) return none(TEXTS.noAppeals);
  return table("appeals-head", [
    [TEXTS.about, (appeal) => data(own.aboutText(appeal))],
    [TEXTS.session, ({ session }) => own.sessionText(session)],
    [TEXTS.lodged, ({ lodged }) => dayText(lodged)],
    [TEXTS.reason, ({ reason }) => (reason ? data(reason) : null)],
    [TEXTS.state, (appeal) => stateText(appeal, own.day(appeal.session))],
    [TEXTS.answer, ({ answer }) => (answer ? data(answer) : null)],
    [TEXTS.change, (appeal) => (appeal.state === "open" ? retractButton(own, appeal, retract) : null), "screen"],
  ], own.appeals);
}

/** An appeal that was open on the day of its session is not decided any more. */
function stateText({ state, standing }, day) {
  if (state === "open" && day && isOver(day)) return TEXTS.undecided;
  return state === "granted" && standing ? TEXTS.standing : TEXTS[state];
}

function retractButton(own, appeal, retract) {
  const button = element("button", { type: "button", className: "plain" }, TEXTS.retract);
  const values = { about: own.aboutText(appeal), session: own.sessionText(appeal.session) };
  button.setAttribute("aria-label", fill(TEXTS.retractOne, values));
  button.addEventListener("click", () => retract(appeal));
  return button;
}
