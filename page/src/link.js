/* Seed, program and moves as the part of a link behind #: 40.c1-3f0.o.k1000 is forty steps, a cut, an opening, a thousand cuts by chance. */
function chosenText(chosen) {
  let text = "";
  for (let i = 0; i < chosen.length; i += 4) {
    text += [0, 1, 2, 3].reduce((sum, k) => sum + (chosen[i + k] ? 1 << k : 0), 0).toString(16);
  }
  return text;
}

function chosenOf(text) {
  return [...text].flatMap(digit => [0, 1, 2, 3].map(k => (parseInt(digit, 16) >> k & 1) === 1));
}

function movesText(moves) {
  const words = [];
  let steps = 0;
  const rest = () => { if (steps) words.push(String(steps)); steps = 0; };
  for (const move of moves) {
    if (move.kind === "step") {
      steps += 1;
      continue;
    }
    rest();
    if (move.kind === "cut") words.push("c" + move.fences + "-" + chosenText(move.chosen));
    if (move.kind === "open") words.push("o");
    if (move.kind === "chance") words.push("k" + move.count);
  }
  rest();
  return words.join(".");
}

/* The moves of a text; null if it is none, or too long to be played at once. */
function movesOf(text) {
  const moves = [];
  let steps = 0, cuts = 0;
  for (const word of text ? text.split(".") : []) {
    const cut = /^c(\d{1,4})-([0-9a-f]*)$/.exec(word), count = /^(k?)(\d{1,6})$/.exec(word);
    if (cut) moves.push({ kind: "cut", fences: Number(cut[1]), chosen: chosenOf(cut[2]) });
    else if (word === "o") moves.push({ kind: "open" });
    else if (!count) return null;
    else if (count[1]) moves.push({ kind: "chance", count: Number(count[2]) });
    else for (let i = 0; i < Number(count[2]) && i <= MOST_STEPS; i++) moves.push({ kind: "step" });
    steps += count && !count[1] ? Number(count[2]) : 0;
    cuts += count && count[1] ? Number(count[2]) : 0;
    if (steps > MOST_STEPS || cuts > MOST_CUTS) return null;
  }
  return moves;
}

function linkText(seed, program, moves) {
  return "#seed=" + seed + "&program=" + program + "&moves=" + movesText(moves);
}

/* What a link says; null if it says nothing that can be played. */
function linkOf(hash) {
  const words = new URLSearchParams(hash.replace(/^#/, ""));
  if (!words.has("seed")) return null;
  const seed = Number(words.get("seed")), program = Number(words.get("program") || 0), moves = movesOf(words.get("moves") || "");
  if (!Number.isInteger(seed) || seed < 0 || seed > 0xffffffff || !PROGRAMS[program] || !moves) return null;
  return { seed, program, moves };
}
