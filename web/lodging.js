// The form for an appeal.
import { byId, element, fillChoices, put } from "./elements.js";
import { TEXTS } from "./texts.js";
import { dayText, fill, isOver } from "./wording.js";

// The last day to lodge is so many days before the session.
const KINDS = {
  hall: { days: 2, prefix: "HA", none: "noHallHere" },
  clash: { days: 5, prefix: "CL", none: "noClashHere" },
  arrangement: { days: 10, prefix: "AR", none: "noSessionHere" },
};
const FEATURES = ["step-free", "screen", "reader", "small-room", "computer", "quiet"];
const REASON_BYTES = 200;
const NEAR = 60; // from so many bytes before the end of the reason on, the page says how many are left
const DAY = 24 * 60 * 60 * 1000;

export class LodgingForm {
  #own; // the answers that `clear` and `show` were given last
  #isFilledIn; // whether somebody has changed needs or extra time

  constructor() {
    byId("needs").replaceChildren(...FEATURES.map(featureChoice));
    byId("lodge").addEventListener("change", ({ target }) => this.#changed(target));
    byId("reason").addEventListener("input", () => this.#showRoom());
  }

  /**
   * Forgets all that was entered.
   * @param {import("./views.js").Own} own
   */
  clear(own) {
    byId("lodge").reset();
    this.show(own);
    this.#takeArrangement();
  }

  /** Offers the sessions of the kind that is chosen; last, and marked, those that are past their last day. */
  show(own) {
    this.#own = own;
    const kind = chosenKind();
    for (const each of Object.keys(KINDS)) byId(`for-${each}`).hidden = each !== kind;
    const sessions = this.#sessions(kind);
    fillChoices(byId("session"), sessions.map((value) => ({ value, text: this.#choiceText(value) })));
    byId("no-session").hidden = sessions.length > 0;
    byId("no-session").textContent = TEXTS[KINDS[kind].none];
    byId("asked").hidden = sessions.length === 0;
    this.#showSession();
    this.#showRoom();
  }

  /** The appeal without its reference, or null after the candidate was told what is wrong with it. */
  body(warn) {
    const kind = chosenKind();
    const session = byId("session").value;
    const reason = cleaned(byId("reason").value);
    const over = sizeOf(reason) - REASON_BYTES;
    if (over > 0) return warn(fill(TEXTS.tooLong, { count: over }), byId("reason"));
    const extra = byId("extra").value.trim();
    if (kind === "arrangement" && !isPercent(extra)) return warn(TEXTS.badExtra, byId("extra"));
    const asked = {
      hall: () => ({ hall: this.#own.seat(session).hall }),
      clash: () => ({ paper: byId("paper").value }),
      arrangement: () => ({ needs: chosenNeeds(), extra: Number(extra) }),
    };
    return { kind, session, reason, ...asked[kind]() };
  }

  /** The next free reference. Until the appeals are looked at again it stays, so that an appeal keeps it in repeats. */
  reference({ kind }) {
    const taken = new Set(this.#own.appeals.map(({ ref }) => ref));
    let number = 1;
    while (taken.has(`${KINDS[kind].prefix}${number}`)) number += 1;
    return `${KINDS[kind].prefix}${number}`;
  }

  /** Makes room for another appeal, after one was lodged. */
  done() {
    byId("reason").value = "";
    this.#takeArrangement();
  }

  #sessions(kind) {
    const has = {
      hall: ({ hall }) => hall !== null,
      clash: ({ session }) => this.#own.clashes.some((clash) => clash.session === session),
      arrangement: () => true,
    };
    const sessions = this.#own.seats.filter(has[kind]).map(({ session }) => session);
    return sessions.sort((one, other) => this.#isLate(one) - this.#isLate(other));
  }

  /** The last day to lodge an appeal of the kind that is chosen. */
  #lastDay(session) {
    return daysBefore(this.#own.seat(session).date, KINDS[chosenKind()].days);
  }

  #isLate(session) {
    return isOver(this.#lastDay(session));
  }

  #choiceText(code) {
    const session = this.#own.sessionText(code);
    return this.#isLate(code) ? fill(TEXTS.tooLate, { session }) : session;
  }

  #changed(target) {
    if (target.name === "kind") this.show(this.#own);
    if (target.id === "session") this.#showSession();
    if (byId("for-arrangement").contains(target)) this.#isFilledIn = true;
    else if (!this.#isFilledIn) this.#takeArrangement();
  }

  #showSession() {
    const session = byId("session").value;
    const { titles, clashes } = this.#own;
    const { hall } = this.#own.seat(session) ?? {};
    put("for-hall", hall ? fill(TEXTS.notThisHall, { hall: titles.hall(hall) }) : "");
    const papers = clashes.filter((clash) => clash.session === session);
    fillChoices(byId("paper"), papers.map(({ paper }) => ({ value: paper, text: titles.paper(paper) })));
    const until = session && (this.#isLate(session) ? TEXTS.late : TEXTS.until);
    put("until", fill(until, { day: session && dayText(this.#lastDay(session)) }));
  }

  /** An arrangement appeal begins with what the candidate has in the session. */
  #takeArrangement() {
    const { needs, extra } = this.#own.seat(byId("session").value) ?? { needs: "-", extra: 0 };
    for (const box of byId("needs").querySelectorAll("input")) box.checked = needs.split("+").includes(box.value);
    byId("extra").value = extra;
    this.#isFilledIn = false;
  }

  #showRoom() {
    const count = REASON_BYTES - sizeOf(byId("reason").value);
    const text = count < 0 ? fill(TEXTS.tooLong, { count: -count }) : fill(TEXTS.left, { count });
    byId("left").textContent = count < NEAR ? text : "";
    byId("left").className = count < 0 ? "lacking" : "";
  }
}

function featureChoice(feature) {
  const box = element("input", { type: "checkbox", value: feature });
  return element("label", { className: "choice" }, box, ` ${TEXTS[feature]}`);
}

function daysBefore(date, days) {
  return new Date(Date.parse(`${date}T00:00:00Z`) - days * DAY).toISOString().slice(0, 10);
}

const chosenKind = () => document.querySelector("input[name=kind]:checked").value;

function chosenNeeds() {
  const boxes = [...byId("needs").querySelectorAll("input:checked")];
  return boxes.map(({ value }) => value).join("+") || "-";
}

const isPercent = (text) => /^[0-9]{1,3}$/.test(text) && text <= 100;

const sizeOf = (text) => new TextEncoder().encode(text).length;

/** The reason in one line of well-formed Unicode, since the office takes no control characters. */
function cleaned(text) {
  const whole = new TextDecoder().decode(new TextEncoder().encode(text));
  return whole.replace(/[\s\u0000-\u001f\u007f-\u009f]+/g, " ").trim();
}
