"use strict";
document.documentElement.classList.add("js");

// "/" goes to the search, as in many programs, unless the box on the page of candidates says no; Escape leaves a field
const slash = document.getElementById("slash");
if (slash) {
  slash.closest("[hidden]").hidden = false;
  slash.checked = localStorage.slash !== "no";
  slash.addEventListener("change", () => { localStorage.slash = slash.checked ? "yes" : "no"; });
}
addEventListener("keydown", (event) => {
  const writes = event.target.closest("input, select, textarea");
  if (event.key === "/" && localStorage.slash !== "no" && !writes && !event.ctrlKey && !event.metaKey && !event.altKey) {
    event.preventDefault();
    document.getElementById("find")?.focus();
  } else if (event.key === "Escape" && writes) {
    writes.blur();
  }
});

// a form is sent once, and says that it works; its button keeps the focus
const status = document.getElementById("status");
addEventListener("submit", (event) => {
  const form = event.target, button = event.submitter;
  if (form.target === "_blank" || form.method !== "post" || "file" in form.dataset) return;  // no page follows a file
  if (form.dataset.sent) {
    event.preventDefault();
    return;
  }
  form.dataset.sent = form.dataset.typed ?? "nothing";
  delete form.dataset.typed;
  for (const each of form.querySelectorAll("button")) each.setAttribute("aria-disabled", "true");
  if (button && form.dataset.busy) {
    button.dataset.was = button.textContent;
    status.textContent = button.textContent = form.dataset.busy;
  }
});
function ready() {
  status.textContent = "";
  for (const form of document.forms) delete form.dataset.sent;
  for (const each of document.querySelectorAll("button[aria-disabled]")) {
    each.removeAttribute("aria-disabled");
    if (each.dataset.was) each.textContent = each.dataset.was;
  }
}
window.navigation?.addEventListener("navigateerror", ready);  // the page was stopped: the form can be sent again

// what was typed or ticked, and is not sent, is not left by mistake; a tick that a form requires is no loss
addEventListener("input", (event) => {
  const form = event.target.form, isLoss = !event.target.matches("select, [type=file], [type=checkbox][required]");
  if (isLoss && form?.method === "post" && form.target !== "_blank") form.dataset.typed = "typed";
});
const has = (forms) => document.querySelector(forms) !== null;
addEventListener("beforeunload", (event) => { if (has("[data-typed]")) event.preventDefault(); });

// a page that comes back as it was left stays so for what is typed in it, until that is done; else it is loaded anew
if (has(".tag.done, .said.good")) sessionStorage.done = Date.now();
addEventListener("pageshow", (event) => {
  if (!event.persisted) return;
  const isDone = sessionStorage.done > performance.timeOrigin;
  if (has("[data-typed]") || has("[data-sent=typed]") && !isDone) ready();
  else location.reload();
});

// a piece of a page that is made when it is asked for: a hall, what a grant would come to
const lines = (piece) => [...piece.querySelectorAll("li")].map((each) => each.textContent);
async function load(place) {
  if (place.dataset.loaded) return;
  place.dataset.loaded = "1";
  const piece = place.querySelector(".piece");
  piece.setAttribute("aria-busy", "true");
  try {
    const answer = await fetch(`${place.dataset.load}?piece`, {credentials: "same-origin"});
    if (answer.redirected || !answer.ok) throw new Error(answer.status);
    const found = document.createRange().createContextualFragment(await answer.text());
    const at = piece.contains(document.activeElement) && document.activeElement.getAttribute("href");
    const had = lines(piece);
    piece.replaceChildren(found);
    if (at !== false) {  // the focus stays at its link, or near it
      piece.tabIndex = -1;
      ([...piece.querySelectorAll("a")].find((each) => each.getAttribute("href") === at) ?? piece).focus();
    }
    const fresh = lines(piece).filter((each) => !had.includes(each)).length;
    if (fresh && place.dataset.more) status.textContent = `${place.dataset.more} ${fresh}`;
  } catch {
    delete place.dataset.loaded; // its link stays, and says why
  }
  piece.removeAttribute("aria-busy");
}
const halls = document.querySelectorAll("details[data-load]");
for (const each of halls) each.addEventListener("toggle", () => { if (each.open) load(each); });
for (const each of document.querySelectorAll("[data-load]:not(details)")) load(each);

// a link to a hall opens it; where there are few, the first is open
function open() {
  const place = location.hash.length > 1 && document.getElementById(location.hash.slice(1));
  const hall = place && place.closest("details[data-load]");
  if (hall) {
    hall.open = true;
    hall.scrollIntoView();
  }
}
addEventListener("hashchange", open);
open();
if (halls.length && halls.length <= 12 && ![...halls].some((each) => each.open)) halls[0].open = true;

// what a form came to has the focus: the field that is wrong, else what is said, which stands where the address leads
const said = document.getElementById("said"), there = document.getElementById(location.hash.slice(1));
if (said && there) there[there.matches("section") ? "prepend" : "before"](said);
function toWhatIsSaid() {
  (document.querySelector("[aria-describedby^='fault-']") ?? document.querySelector("[data-focus]"))?.focus();
}
addEventListener("load", () => setTimeout(toWhatIsSaid));  // behind the browser, which goes to where the address leads

// files: chosen or dropped, a folder too
const wanted = /\.(csv|zip|xlsx|xlsm|ods|toml)$/i;
function tables(found) {  // a folder has other files, too
  const some = found.filter((file) => wanted.test(file.name));
  return some.length ? some : found.slice(0, 10);
}
let brought = 0;
async function send(drop, found) {
  const form = new FormData(drop), line = drop.querySelector(".big"), mine = ++brought;
  form.delete("files");
  for (const file of found) form.append("files", file, file.name);
  line.setAttribute("role", "status");  // first, so that what it says is announced
  line.textContent = isTooLarge(drop, found) ? drop.dataset.large : drop.dataset.working;
  if (isTooLarge(drop, found)) return;
  drop.dataset.typed = "typed";  // who leaves now is asked
  try {
    const answer = await fetch(drop.action, {method: "POST", body: form, credentials: "same-origin"});
    if (mine !== brought) return;  // others came meanwhile; the page of these stands among what is uploaded
    delete drop.dataset.typed;
    if (answer.redirected) {
      location.href = answer.url;
      return;
    }
    const page = new DOMParser().parseFromString(await answer.text(), "text/html"), main = page.getElementById("main");
    if (!main) throw new Error(answer.status);
    document.title = page.title;
    document.querySelector("main").replaceChildren(...main.children);
    toWhatIsSaid();
  } catch (fault) {
    delete drop.dataset.typed;
    line.textContent = fault.message === "401" ? drop.dataset.ended : drop.dataset.nothing;
  }
}
function isTooLarge(field, found) {
  return found.reduce((sum, file) => sum + file.size, 0) > field.dataset.most;
}
async function read(entry) {
  if (entry.isFile) return [await new Promise((done, fail) => entry.file(done, fail))];
  const reader = entry.createReader(), found = [];
  for (;;) {
    const some = await new Promise((done, fail) => reader.readEntries(done, fail));
    if (!some.length) return (await Promise.all(found.map(read))).flat();
    found.push(...some.filter((each) => each.isFile));
  }
}
addEventListener("change", (event) => {
  const input = event.target, drop = input.closest("#drop"), found = [...input.files ?? []];
  if (input.dataset.large) input.setCustomValidity(isTooLarge(input, found) ? input.dataset.large : "");
  if (!drop || !found.length) return;
  input.value = "";  // so that a file which nothing was taken of can be chosen again
  send(drop, input.webkitdirectory ? tables(found) : found);
});
// a file is taken wherever it falls on the page: beside the place the browser would show it, and leave the page
function place(event) {
  const drop = document.getElementById("drop");
  if (!drop || !event.dataTransfer.types.includes("Files")) return null;
  event.preventDefault();
  drop.classList.toggle("over", event.type === "dragover");
  return drop;
}
addEventListener("dragover", place);
addEventListener("dragleave", place);
addEventListener("drop", async (event) => {
  const drop = place(event);
  if (!drop) return;
  const entries = [...event.dataTransfer.items].map((item) => item.webkitGetAsEntry()).filter(Boolean);
  const found = await Promise.all(entries.map(async (each) => each.isFile ? read(each) : tables(await read(each))));
  send(drop, found.flat());
});

// each hall has a list of its own to tick who is absent: one is sent with all, and with the numbers that are typed; who
// stands in two is ticked in both
addEventListener("change", (event) => {
  if (event.target.name !== "absent") return;
  for (const box of document.querySelectorAll(`input[name=absent][value="${event.target.value}"]`)) box.checked = event.target.checked;
});
addEventListener("formdata", (event) => {
  if (!event.target.action.endsWith("/absent")) return;
  const numbers = document.querySelector("#absent [name=numbers]");
  if (numbers && numbers.form !== event.target) event.formData.append("numbers", numbers.value);
  delete numbers?.form.dataset.typed;
  for (const box of document.querySelectorAll("input[name=absent]")) {
    const isOther = box.form !== event.target && box.checked !== (box.nextElementSibling?.name === "was");
    if (isOther) event.formData.append(box.checked ? "absent" : "was", box.value);
    delete box.form.dataset.typed;  // its ticks are sent, too
  }
});
