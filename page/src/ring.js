/* The ring of groups as a picture: a spoke for each group, its number and tags inside, seven data blocks outwards. */
const STATES = {
  back: "landed, comes back",
  stays: "landed, will not come back",
  tags: "a group's number and tags, landed",
  torn: "torn: a part of it has not arrived",
  blank: "blank, or a place not used",
  old: "old: trimmed, below the start",
  damaged: "damaged",
  unknown: "landed, not known whether it comes back",
  missing: "not read, beyond the end of the file",
};
const SELDOM = ["damaged", "unknown", "missing"]; /* in the legend only if there are any */
const INNER = 62, OUTER = 176, MIDDLE = 210, MOST_SPOKES = 64;

function isBlank(block) {
  return block.every((byte, i) => (i === BLOCK - 1 ? byte & 0x7f : byte) === 0);
}

/* A data block of a slot without a valid group: what trims, openings and cuts leave there. */
function looseState(hole, block, fits) {
  if (hole.startsWith("damaged")) return "damaged";
  if (isBlank(block)) return "blank";
  return hole.startsWith("trimmed") && fits ? "old" : "torn";
}

function entryState(entry) {
  if (!entry) return "blank";
  if (entry.torn) return "torn";
  if (entry.kind === "nothing") return "damaged";
  return entry.comes_back === null ? "unknown" : entry.comes_back ? "back" : "stays";
}

/* The states of the eight blocks of each slot, from the inspector's JSON and the image's bytes. */
function blockStates(told, image) {
  const { groups } = told.header;
  return told.slots.map((slot, s) => {
    const bytes = image.subarray(HEADER + GROUP * s, HEADER + GROUP * s + GROUP);
    const block = k => bytes.subarray(BLOCK * k, BLOCK * k + BLOCK);
    if (!slot.hole) {
      return ["tags", ...[0, 1, 2, 3, 4, 5, 6].map(k => entryState(slot.entries.find(entry => entry.position === ENTRIES * slot.group + k)))];
    }
    if (slot.hole.startsWith("cut off")) return new Array(8).fill("missing");
    const turn = Math.floor(number(bytes, 2, 6) / groups) % 2;
    const first = slot.hole.startsWith("trimmed") ? "old" : slot.hole.startsWith("damaged") ? "damaged" : "blank";
    return [first, ...[1, 2, 3, 4, 5, 6, 7].map(k => looseState(slot.hole, block(k), block(k)[BLOCK - 1] >> 7 === turn))];
  });
}

function point(radius, angle) {
  return (MIDDLE + radius * Math.sin(angle)).toFixed(2) + " " + (MIDDLE - radius * Math.cos(angle)).toFixed(2);
}

/* The outline of block part of the slot-th of so many spokes. */
function cellPath(slot, part, groups) {
  const step = 2 * Math.PI / groups, gap = groups <= MOST_SPOKES ? Math.min(0.02, step / 12) : 0;
  const from = slot * step + gap, to = (slot + 1) * step - gap;
  const low = INNER + (OUTER - INNER) * part / 8 + (part ? 0.8 : -4), high = INNER + (OUTER - INNER) * (part + 1) / 8 - 0.8;
  return "M" + point(low, from) + "A" + low + " " + low + " 0 0 1 " + point(low, to) + "L" + point(high, to)
    + "A" + high + " " + high + " 0 0 0 " + point(high, from) + "Z";
}

function countStates(states) {
  const counts = {};
  for (const slot of states) for (const state of slot) counts[state] = (counts[state] || 0) + 1;
  return counts;
}

function spokeLabel(told, slot) {
  const angle = 2 * Math.PI * (slot + 0.5) / told.header.groups, entry = told.slots[slot];
  const [x, y] = point(OUTER + 17, angle).split(" ");
  const text = entry.group === undefined ? "–" : String(entry.group);
  return svg("text", { x, y, class: entry.group === told.header.start ? "start" : null }, text);
}

/* One path for each block, or for each state where there are many. */
function ringCells(states) {
  const groups = states.length;
  if (groups <= MOST_SPOKES) {
    return states.flatMap((slot, s) => slot.map((state, part) => svg("path", { d: cellPath(s, part, groups), class: "cell " + state },
      svg("title", null, "slot " + s + ", " + (part ? "data block " + (part - 1) : "number and tags") + ": " + STATES[state]))));
  }
  return Object.keys(STATES).map(state => {
    const d = states.flatMap((slot, s) => slot.map((one, part) => one === state ? cellPath(s, part, groups) : "")).join("");
    return d ? svg("path", { d, class: "cell fine " + state }) : null;
  }).filter(Boolean);
}

/* The picture of an inspected image; over: further paths on top of it. */
function ringPicture(told, states, over = []) {
  const { groups, start } = told.header, counts = countStates(states);
  const label = "Ring of " + groups + " groups, start " + start + ". Blocks: "
    + Object.keys(STATES).filter(state => counts[state]).map(state => counts[state] + " " + STATES[state]).join("; ") + ".";
  const labels = groups <= 32 ? told.slots.map((_, slot) => spokeLabel(told, slot)) : [];
  return svg("svg", { viewBox: "0 0 420 420", role: "img", "aria-label": label, class: "ring" }, ringCells(states), over, labels,
    svg("text", { x: MIDDLE, y: MIDDLE - 8, class: "hub" }, plural(groups, "group")),
    svg("text", { x: MIDDLE, y: MIDDLE + 14, class: "hub" }, "start " + start.toLocaleString("en")));
}

function legend(states, more = []) {
  const counts = countStates(states);
  const sign = state => svg("svg", { viewBox: "0 0 18 18", class: "sign", "aria-hidden": "true" },
    svg("rect", { x: 1, y: 1, width: 16, height: 16, class: "cell " + state }));
  return el("ul", { class: "legend" }, Object.keys(STATES).filter(state => counts[state] || !SELDOM.includes(state))
    .map(state => el("li", null, sign(state), STATES[state] + " (" + (counts[state] || 0).toLocaleString("en") + ")")),
  more.map(([state, text]) => el("li", null, sign(state), text)));
}
