/* Elements of the page. */
function byId(id) {
  return document.getElementById(id);
}

function build(made, attributes, children) {
  for (const [key, value] of Object.entries(attributes || {})) {
    if (value === false || value === null || value === undefined) continue;
    if (key === "on") for (const [event, act] of Object.entries(value)) made.addEventListener(event, act);
    else made.setAttribute(key, value === true ? "" : value);
  }
  made.append(...children.flat(Infinity).filter(child => child !== null && child !== undefined && child !== false));
  return made;
}

/* An element with attributes (on: listeners) and children, which are elements or text. */
function el(name, attributes, ...children) {
  return build(document.createElement(name), attributes, children);
}

function svg(name, attributes, ...children) {
  return build(document.createElementNS("http://www.w3.org/2000/svg", name), attributes, children);
}

/* Puts children in the place of all that an element holds. */
function fill(parent, ...children) {
  parent.replaceChildren(...children.flat(Infinity).filter(child => child !== null && child !== undefined && child !== false));
}

/* A table whose long tail comes with a button. row(item) gives its cells; numbers stand right. */
function table(caption, heads, items, row, most = 100) {
  const body = el("tbody");
  const add = upTo => {
    for (let i = body.childElementCount; i < Math.min(upTo, items.length); i++) body.append(el("tr", null, row(items[i]).map(cell)));
  };
  add(most);
  const top = el("thead", null, el("tr", null, heads.map(head => el("th", { scope: "col" }, head))));
  const made = el("table", null, el("caption", null, caption), top, body);
  const frame = el("div", { class: "wide", tabindex: "0", role: "region", "aria-label": caption }, made);
  if (items.length <= most) return frame;
  const more = el("button", { type: "button", on: { click: () => {
    add(body.childElementCount + 10 * most);
    if (body.childElementCount === items.length) more.remove();
  } } }, "Show more of " + items.length.toLocaleString("en"));
  return el("div", null, frame, more);
}

function cell(value) {
  if (value instanceof Node) return el("td", null, value);
  return el("td", typeof value === "number" ? { class: "number" } : null, String(value));
}

/* Waits until the page has been drawn, so that long work leaves it alive. */
function breathe() {
  return new Promise(go => setTimeout(go, 0));
}

/* Gives bytes or text to the reader as a file. */
function saveFile(name, content) {
  const place = URL.createObjectURL(new Blob([content]));
  const link = el("a", { href: place, download: name });
  document.body.append(link);
  link.click();
  link.remove();
  setTimeout(() => URL.revokeObjectURL(place), 1000);
}
