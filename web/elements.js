// Pieces of the page. Whatever comes from the office goes in as text, never as HTML.
import { TEXTS } from "./texts.js";

export const byId = (id) => document.getElementById(id);

/** Says a text at a place, once: what stands there already would be read aloud again. */
export function put(id, text) {
  if (byId(id).textContent !== text) byId(id).textContent = text;
}

/** An element with texts and other elements in it. */
export function element(tag, properties = {}, ...contents) {
  const made = Object.assign(document.createElement(tag), properties);
  made.append(...contents);
  return made;
}

/** A text that comes from the office or from the candidate: its direction is its own. */
export const data = (text) => element("bdi", {}, text);

/**
 * A table that stays a table for a screen reader where the style sheet shows it as cards. It leaves out a column that
 * has nothing in any row.
 * @template Row
 * @param {string} heading the id of the heading that names it
 * @param {[head: string, content: (row: Row) => string | number | Node | null, className?: string][]} columns
 * @param {Row[]} rows
 */
export function table(heading, columns, rows) {
  const contents = rows.map((row) => columns.map(([, content]) => content(row)));
  const shown = columns.map((_, place) => contents.some((cells) => cells[place] !== null));
  const kept = (cells) => cells.filter((_, place) => shown[place]);
  const heads = kept(columns).map(([text, , className = ""]) =>
    element("th", { role: "columnheader", scope: "col", className }, text));
  const body = element("tbody", { role: "rowgroup" });
  body.append(...contents.map((cells) => tableRow(kept(columns), kept(cells))));
  const head = element("tr", { role: "row" }, ...heads);
  const made = element("table", { role: "table" }, element("thead", { role: "rowgroup" }, head), body);
  made.setAttribute("aria-labelledby", heading);
  return made;
}

/** Where the row is a card the style sheet leaves out the cells with nothing in them. */
function tableRow(columns, cells) {
  const row = element("tr", { role: "row" });
  row.append(...cells.map((content, place) => {
    const [head, , className = ""] = columns[place];
    const cell = element("td", { role: "cell", className }, element("div", {}, content ?? TEXTS.nothing));
    cell.classList.toggle("nothing", content === null);
    cell.dataset.head = head;
    return cell;
  }));
  return row;
}

/** Gives a list its choices, and keeps the one that was chosen if it is still there. */
export function fillChoices(list, choices) {
  const chosen = list.value;
  list.replaceChildren(...choices.map(({ value, text }) => element("option", { value, dir: "auto" }, text)));
  if (choices.some(({ value }) => value === chosen)) list.value = chosen;
}
