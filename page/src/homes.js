/* Homes held against the book, home by home. */
function homeBlock(homes, home) {
  return homes.subarray(BLOCK * home, BLOCK * home + BLOCK);
}

function homeItem(home, byBook, found) {
  const wants = blockText(home, homeBlock(byBook, home));
  const name = el("b", null, home + " ", el("span", null, homeName(home)));
  if (!found) return el("li", { class: wants === "zeros" ? "zeros" : null }, name, el("span", { class: "value" }, wants));
  const block = homeBlock(found, home), same = block.every((byte, i) => byte === byBook[BLOCK * home + i]);
  if (same) {
    return el("li", { class: wants === "zeros" ? "zeros same" : "same" }, name, el("span", { class: "mark", "aria-label": "the same" }, "="),
      el("span", { class: "value" }, wants));
  }
  return el("li", { class: "differs" }, name, el("span", { class: "mark", "aria-label": "different" }, "≠"),
    el("span", { class: "value" }, "book: " + wants), el("span", { class: "value" }, "found: " + blockText(home, block)));
}

/* All homes by the book and, after an opening, as found. */
function homesList(byBook, found) {
  return el("ul", { class: "homes" }, Array.from({ length: byBook.length / BLOCK }, (_, home) => homeItem(home, byBook, found)));
}

function namesOf(homes) {
  return (homes.length === 1 ? "home " : "homes ") + homes.map(home => home + " (" + homeName(home) + ")").join(", ");
}

/* What a wrong program did to the commits, one sentence each. */
function hurtWords(result) {
  const words = result.owedLost.map(commit => "Commit " + commit.number + " of " + TASKS[commit.writer]
    + " was confirmed durable, and it is lost: its blocks never landed.");
  for (const { commit, lost, there } of result.hurt) {
    const who = "Commit " + commit.number + " of " + TASKS[commit.writer];
    words.push(there.length ? who + " is back by half. Its blocks are in " + namesOf(there) + ", but not in " + namesOf(lost) + "."
      : who + " is lost. Its blocks should be in " + namesOf(lost) + ", and are not.");
  }
  const strange = result.differ.filter(home => !result.hurt.some(hurt => hurt.lost.includes(home)));
  if (strange.length) words.push("A commit that is not in the run came back, in " + namesOf(strange) + ".");
  if (result.code) words.push("The opening was refused with " + result.code + ".");
  return words;
}
