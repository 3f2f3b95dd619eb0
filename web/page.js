// The candidates' page: logs in, shows seats, clashes and appeals, lodges and takes back appeals.
import { calendarFile } from "./calendar.js";
import { byId, element } from "./elements.js";
import { LodgingForm } from "./lodging.js";
import { Candidate, Fault } from "./office.js";
import { DIRECTION, LANGUAGE, TEXTS } from "./texts.js";
import { appealTable, clashTable, Own, seatTable } from "./views.js";
import { dayText, fill, Titles } from "./wording.js";

const titles = new Titles();
let candidate = null; // who is logged in
let own = new Own(titles);
let current = null; // the step that is being done
let next = null; // what was pressed meanwhile, and is done after it
let retracting = null; // the appeal that the dialog asks about

let entering = null; // who is being asked for, before they are logged in
let touched = Date.now(); // when somebody used the page last

const TITLES_WAIT = 5000; // milliseconds
const FRESH = 60 * 1000; // what is older is looked at again when the page comes back to front
const IDLE = 20 * 60 * 1000; // after which a candidate is logged out, since others may use the device
const WRONG_CODE = 6; // numbers that the office answers
const TAKEN = 14;
const STALE = [8, 11, 12, 15, 16, 18, 19]; // the office has it otherwise than the page shows
const lodging = new LodgingForm();

function say(text) {
  byId("status").textContent = text;
}

/** Says what is wrong, and leads to the field where it is, whose first words are these until the next step. */
function warn(text, field) {
  byId("alert").textContent = text;
  if (field) mark(field, true);
  field?.focus();
  return null;
}

function mark(field, isWrong) {
  const hints = (field.getAttribute("aria-describedby") ?? "").replace("alert ", "");
  field.setAttribute("aria-describedby", isWrong ? `alert ${hints}` : hints);
  field.setAttribute("aria-invalid", String(isWrong));
}

function clearNotices() {
  say("");
  byId("alert").textContent = "";
  for (const field of document.querySelectorAll("[aria-invalid=true]")) mark(field, false);
}

/** Does one step at a time, and says what went wrong. What is pressed meanwhile waits, and the page says so. */
async function step(work) {
  if (current) {
    if (work !== current && work !== lookAgain) {
      next = work;
      byId("alert").textContent = TEXTS.waitsForAnswer;
    }
    return;
  }
  const asking = candidate;
  setCurrent(work);
  clearNotices();
  try {
    await work();
  } catch (fault) {
    if (!(asking ?? entering)?.left) await told(fault);
  } finally {
    setCurrent(null);
    if (next) step(next);
  }
}

/** Says a fault, behind a look again where the page is old by it, or a log out where the access code is another one. */
async function told(fault) {
  if (candidate && fault.number === WRONG_CODE) {
    logOut("");
    return warn(TEXTS.otherCode, byId("number"));
  }
  if (candidate && STALE.includes(fault.number)) await lookAgain().catch(console.info);
  return tell(fault);
}

/** Marks the answers as about to change, but not the notices: a screen reader would keep them back. */
function setCurrent(work) {
  current = work;
  if (work) next = null;
  document.body.classList.toggle("busy", work !== null);
  byId("visit").setAttribute("aria-busy", String(work !== null));
}

function tell(fault) {
  say("");
  if (!(fault instanceof Fault)) {
    console.error(fault);
    return warn(TEXTS.pageFault);
  }
  return warn(fill(fault.message, { day: fault.day ? dayText(fault.day) : "" }), fault.field);
}

/** What the page shows stays there without a connection. */
function showConnection() {
  byId("offline").textContent = navigator.onLine ? "" : TEXTS.offline;
}

async function list(asked, name) {
  const answer = await asked.ask("GET", name, undefined, say);
  if (!Array.isArray(answer[name])) throw new Fault(TEXTS.pageFault);
  return answer[name];
}

/** Asks one after the other: the office answers one connection at a time. */
async function look(asked) {
  const titlesLoaded = loadTitles();
  const seats = await list(asked, "seats");
  const clashes = await list(asked, "clashes");
  const appeals = await list(asked, "appeals");
  await titlesLoaded;
  return new Own(titles, seats, clashes, appeals);
}

/** Lodging and taking back changes nothing but the appeals; the seats are as old as they were. */
async function lookAtAppeals() {
  own = new Own(titles, own.seats, own.clashes, await list(candidate, "appeals"), own.time);
}

function show() {
  byId("seats").replaceChildren(seatTable(own));
  byId("clashes").replaceChildren(clashTable(own));
  byId("appeals").replaceChildren(appealTable(own, askRetract));
  const time = own.time.toLocaleString(LANGUAGE, { dateStyle: "medium", timeStyle: "short" });
  byId("as-of").textContent = fill(TEXTS.asOf, { time });
  lodging.show(own);
}

async function logIn() {
  const number = typed("number");
  const code = typed("code").replace(/-/g, "").toUpperCase();
  if (!/^[0-9]{1,7}$/.test(number)) return warn(TEXTS.badNumber, byId("number"));
  if (!/^[A-Z0-9]{8,16}$/.test(code)) return warn(TEXTS.badCode, byId("code"));
  entering = new Candidate(number.padStart(7, "0"), code);
  try {
    own = await look(entering);
  } catch (fault) {
    if (fault.number === WRONG_CODE) fault.field = byId("number");
    throw fault;
  }
  candidate = entering;
  emptyLogin();
  byId("who-number").textContent = candidate.number;
  byId("login").hidden = true;
  show();
  lodging.clear(own);
  byId("visit").hidden = false;
  say(counted());
  return byId("who").focus();
}

/** What was typed, without spaces, its digits those of the office. */
function typed(id) {
  return byId(id).value.replace(/\s/g, "").replace(/[٠-٩۰-۹]/g, (digit) => digit.charCodeAt(0) & 15);
}

async function lookAgain() {
  const before = own;
  own = await look(candidate);
  show();
  const changes = own.changesSince(before);
  say(`${changes ? fill(TEXTS.changed, { changes }) : TEXTS.unchanged} ${counted()}`);
}

const counted = () => fill(TEXTS.loaded, { exams: own.seats.length, appeals: own.appeals.length });

function logOut(said = current ? TEXTS.loggedOutBusy : TEXTS.loggedOut) {
  candidate?.leave();
  candidate = next = null;
  own = new Own(titles);
  show();
  lodging.clear(own);
  clearNotices();
  byId("retract").close();
  byId("retract-ask").textContent = "";
  byId("who-number").textContent = "";
  byId("visit").hidden = true;
  byId("login").hidden = false;
  say(said);
  byId("number").focus();
}

/** Logs out who has left the device, at the latest when somebody touches it again: while it sleeps nothing looks. */
function endIdle() {
  if (candidate && Date.now() - touched > IDLE) logOut(TEXTS.loggedOutIdle);
}

/** Looks again at what is old, once the page is in front. */
function comeBack() {
  endIdle();
  if (candidate && !document.hidden && Date.now() - own.time > FRESH) step(lookAgain);
}

async function lodge() {
  const body = lodging.body(warn);
  if (!body) return;
  const state = await lodged(body, 3);
  await lookAtAppeals();
  lodging.done();
  show();
  say(state === "open" ? TEXTS.lodgeDone : fill(TEXTS.lodgeKnown, { state: TEXTS[state] }));
  byId("appeals-head").focus();
}

/** The state of the appeal once the office has it. Where another appeal has the reference it takes the next one. */
async function lodged(body, tries) {
  try {
    const { state } = await candidate.ask("POST", "appeals", { ...body, ref: lodging.reference(body) }, say);
    return state;
  } catch (fault) {
    if (fault.open) fault.message += ` ${TEXTS.mayHaveArrived}`;
    if (fault.number !== TAKEN || tries === 1) throw fault;
  }
  await lookAtAppeals();
  lodging.show(own);
  return lodged(body, tries - 1);
}

function askRetract(appeal) {
  retracting = appeal;
  const values = { about: own.aboutText(appeal), session: own.sessionText(appeal.session) };
  byId("retract-ask").textContent = fill(TEXTS.retractAsk, values);
  byId("retract").returnValue = "no";
  byId("retract").showModal();
}

async function retract() {
  await candidate.ask("DELETE", `appeals/${retracting.ref}`, undefined, say);
  await lookAtAppeals();
  show();
  say(TEXTS.retractDone);
  byId("appeals-head").focus();
}

function saveCalendar() {
  clearNotices();
  const named = { paper: (code) => titles.paper(code), hall: (code) => titles.hall(code) };
  const asOf = own.time.toLocaleString(LANGUAGE, { dateStyle: "medium", timeStyle: "short" });
  const text = calendarFile(candidate.number, own.seats, location.hostname, asOf, named);
  const href = URL.createObjectURL(new Blob([text], { type: "text/calendar" }));
  element("a", { href, download: "exams.ics" }).click();
  setTimeout(() => URL.revokeObjectURL(href), 60000);
}

/** Shows the code, or hides it from whoever looks over a shoulder. */
function showCode() {
  byId("code").type = byId("show-code").checked ? "text" : "password";
}

/** Forgets what was typed. */
function emptyLogin() {
  byId("login").reset();
  showCode();
}

/** The page works without titles: then it shows codes. */
async function loadTitles() {
  try {
    const answer = await fetch("titles.json", { credentials: "omit", signal: AbortSignal.timeout(TITLES_WAIT) });
    titles.take(await answer.json());
  } catch (fault) {
    console.info("no titles:", fault.message);
  }
}

function onSubmit(id, work) {
  byId(id).addEventListener("submit", (event) => {
    event.preventDefault();
    step(work);
  });
}

function start() {
  document.documentElement.lang = LANGUAGE;
  document.documentElement.dir = DIRECTION;
  document.title = TEXTS.title;
  for (const place of document.querySelectorAll("[data-text]")) place.textContent = TEXTS[place.dataset.text];
  onSubmit("login", logIn);
  onSubmit("lodge", lodge);
  byId("show-code").addEventListener("change", showCode);
  byId("again").addEventListener("click", () => step(lookAgain));
  byId("calendar").addEventListener("click", saveCalendar);
  byId("print").addEventListener("click", () => print());
  byId("logout").addEventListener("click", () => logOut());
  byId("login").addEventListener("input", () => entering?.leave()); // somebody else types: nobody waits for this answer
  for (const kind of ["pointerdown", "keydown"]) addEventListener(kind, () => { endIdle(); touched = Date.now(); });
  document.addEventListener("visibilitychange", comeBack);
  setInterval(endIdle, FRESH);
  byId("retract").addEventListener("close", () => byId("retract").returnValue === "yes" && step(retract));
  addEventListener("online", showConnection);
  addEventListener("offline", showConnection);
  addEventListener("pageshow", ({ persisted }) => persisted && logOut()); // what the browser kept of the page
  addEventListener("pagehide", emptyLogin); // nor does it keep what was typed
  showConnection();
  byId("starting").remove();
  byId("login").hidden = false;
}

start();
