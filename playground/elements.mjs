// The elements that the page makes.

/** Returns an element with a text, which is never read as HTML. */
export function made(name, text = "", more = {}) {
  return Object.assign(document.createElement(name), { textContent: text, ...more });
}

/** Returns a table of rows; a cell is a text, or `[text, class]`. */
export function tableOf(heads, rows, current = -1) {
  const table = made("table");
  const head = table.createTHead().insertRow();
  for (const it of heads) head.append(made("th", it, { scope: "col" }));
  const body = table.createTBody();
  rows.forEach((cells, i) => {
    const row = body.insertRow();
    if (i === current) row.setAttribute("aria-current", "true");
    for (const it of cells) row.append(Array.isArray(it) ? made("td", it[0], { className: it[1] }) : made("td", it));
  });
  return table;
}
