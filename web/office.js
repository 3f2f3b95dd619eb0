// Asks the office, by docs/HTTP.md. Each request may be repeated: nothing is done twice.
import { BUSY, ERRORS, TEXTS } from "./texts.js";

// Seconds before each repeat. Chance makes them longer, so that a class does not ask in step.
const WAITS = [1, 2, 4, 8];
const PATIENCE = 60; // seconds that one try waits for an answer; the web server waits for 40

/** What the candidate reads in the place of an answer. */
export class Fault extends Error {
  /**
   * @param {string} message for the candidate, with {day} where `day` belongs
   * @param {number} number the office's number, or 0 where it gave none
   * @param {string} day the last day to lodge, of number 13
   */
  constructor(message, number = 0, day = "") {
    super(message);
    this.number = number;
    this.day = day;
  }

  /** Whether the command may have been done all the same. */
  get open() {
    return this.number === 0 || this.number === 23;
  }
}

/** A candidate who is logged in. Number and code are in memory alone. */
export class Candidate {
  #code;
  #leaving = new AbortController();

  constructor(number, code) {
    this.number = number;
    this.#code = code;
  }

  /** Gives up what is asked at the moment. */
  leave() {
    this.#code = "";
    this.#leaving.abort();
  }

  get left() {
    return this.#leaving.signal.aborted;
  }

  /**
   * The answer of the office. Repeats a request that was not answered, or with 429, 502, 503 or 504.
   * @param {string} method GET, POST or DELETE
   * @param {string} route what follows the number in the path
   * @param {object} [body] the appeal of a POST
   * @param {(why: string) => void} [waits] is called before each wait
   * @returns {Promise<object>}
   */
  async ask(method, route, body, waits = () => {}) {
    const headers = { "exam-code": this.#code };
    const options = { method, headers, cache: "no-store", credentials: "omit", redirect: "error" };
    if (body) options.body = JSON.stringify(body);
    const path = `/candidates/${this.number}/${route}`;
    let answer = await answerTo(path, options, this.#leaving.signal);
    for (const wait of WAITS) {
      if (this.left || (answer && !Object.hasOwn(BUSY, answer.status))) break;
      waits(answer ? TEXTS.waiting : TEXTS.unanswered);
      await pause(wait * (1 + Math.random()), this.#leaving.signal);
      if (!this.left) answer = await answerTo(path, options, this.#leaving.signal);
    }
    return read(answer);
  }
}

/** Status and text of an answer, or null where none came whole. */
async function answerTo(path, options, leaving) {
  const stop = new AbortController();
  const end = () => stop.abort();
  const timer = setTimeout(end, PATIENCE * 1000);
  leaving.addEventListener("abort", end);
  try {
    const answer = await fetch(path, { ...options, signal: stop.signal });
    return { status: answer.status, text: await answer.text() };
  } catch {
    return null;
  } finally {
    clearTimeout(timer);
    leaving.removeEventListener("abort", end);
  }
}

/** Waits so many seconds, and no longer than until the device is online again. */
function pause(seconds, leaving) {
  return new Promise((done) => {
    setTimeout(done, seconds * 1000);
    leaving.addEventListener("abort", done, { once: true });
    addEventListener("online", done, { once: true });
  });
}

function read(answer) {
  if (!answer) throw new Fault(TEXTS.notAnswered);
  const json = parsed(answer.text);
  const number = json?.error;
  if (Object.hasOwn(ERRORS, number)) throw new Fault(ERRORS[number], number, json.day);
  if (Object.hasOwn(BUSY, answer.status)) throw new Fault(BUSY[answer.status]);
  if (answer.status !== 200 || json === null) throw new Fault(TEXTS.pageFault);
  return json;
}

function parsed(text) {
  try {
    const json = JSON.parse(text);
    return typeof json === "object" ? json : null;
  } catch {
    return null;
  }
}
