/* The station as it is seen: buttons, the ring, tasks, what is on its way, homes beside the book. */
const SPEEDS = { slow: 1400, steady: 500, quick: 120 };
const FATES = {
  owed: "confirmed durable", landed: "all its blocks have landed", going: "not all its blocks have landed",
  back: "in the run", gone: "not in the run",
};
const MOST_LISTED = 8;
const COUNTS = [["cuts", "cuts tried"], ["inside", "of them inside an opening"], ["commits", "commits made"], ["back", "came back after a cut"],
  ["gone", "gone: an entry had not landed"], ["refused", "calls refused"], ["differences", "differences"]];

class StationView {
  constructor(session, history) {
    this.session = session;
    this.history = history;
    this.shown = 0;
    this.timer = 0;
    this.busy = false;
    this.drawing = 0;
    this.choice = new ChoiceView(() => this.drawRing(), choice => this.cutChosen(choice));
  }

  get station() {
    return this.session.station;
  }

  moment() {
    return this.history.moments[this.shown];
  }

  /* After each move: the newest moment is shown. */
  seen() {
    this.history.add(this.session);
    this.shown = this.history.last();
    if (!this.busy) this.draw();
  }

  live() {
    this.shown = this.history.last();
  }

  /* ---- what the buttons do ---- */

  step() {
    this.live();
    if (!this.session.make({ kind: "step" })) this.pause();
    this.keepLink();
  }

  run() {
    if (this.timer) return this.pause();
    const speed = SPEEDS[byId("speed").value];
    this.timer = setInterval(() => this.station.phase === "on" ? this.step() : this.pause(), speed);
    this.step();
    return this.drawButtons();
  }

  pause() {
    const ran = Boolean(this.timer);
    clearInterval(this.timer);
    this.timer = 0;
    if (ran) this.keepLink();
    this.drawButtons();
  }

  startChoice() {
    this.pause();
    this.live();
    this.draw();
    this.choice.start(this.station.lasting, this.session.chance(), chance => this.station.chanceCut(chance));
    this.drawButtons();
  }

  cutChosen(choice) {
    if (choice) this.session.make({ kind: "cut", ...choice });
    this.keepLink();
    this.draw();
    byId(choice ? "open" : "cut").focus();
  }

  open() {
    this.live();
    this.session.make({ kind: "open" });
    this.keepLink();
  }

  async many(count) {
    this.pause();
    this.live();
    this.busy = true;
    this.drawButtons();
    await this.session.chanceCuts(count, async done => {
      this.say(done.toLocaleString("en") + " of " + count.toLocaleString("en") + " cuts …");
      await breathe();
    });
    this.finish();
  }

  /* Finds a short history that shows the wrong program, and plays it. */
  async find() {
    const program = Number(byId("program").value);
    this.pause();
    this.busy = true;
    this.drawButtons();
    const found = await findBreak(this.station, program, Number(byId("seed").value) || 0, async tried => {
      this.say(tried.toLocaleString("en") + " histories tried …");
      await breathe();
    });
    this.busy = false;
    if (found) {
      await this.play(found);
      byId("verdict").focus({ preventScroll: true });
      byId("verdict").scrollIntoView({ block: "center" });
    } else {
      this.start(Number(byId("seed").value) || 0, program);
      this.say("No cut was found that shows a difference.");
    }
  }

  start(seed, program) {
    this.pause();
    this.history.clear();
    this.session.start(seed, program);
    this.keepLink();
  }

  /* Plays seed, program and moves as a link tells them. */
  async play({ seed, program, moves }) {
    this.pause();
    this.busy = true;
    this.history.clear();
    byId("seed").value = seed;
    byId("program").value = program;
    await this.session.play(seed, program, moves);
    this.finish();
  }

  finish() {
    this.busy = false;
    this.live();
    this.keepLink();
    this.draw();
  }

  carryOn() {
    const { moves } = this.moment();
    return this.play({ seed: this.station.seed, program: this.station.program, moves: this.session.moves.slice(0, moves) });
  }

  show(index) {
    this.pause();
    this.shown = Math.max(0, Math.min(index, this.history.last()));
    this.draw();
  }

  link() {
    return linkText(this.station.seed, this.station.program, this.session.moves);
  }

  keepLink() {
    const link = this.link();
    byId("link-text").value = location.href.replace(/#.*/, "") + link;
    if (!this.timer && link.length < 4000 && (this.session.moves.length || /seed=/.test(location.hash))) history.replaceState(null, "", link);
  }

  /* ---- what is drawn ---- */

  say(text) {
    byId("said").textContent = text;
  }

  draw() {
    const moment = this.moment();
    if (!moment) return;
    const { who, text } = moment.said;
    this.say(who >= 0 ? `Task ${who}, ${TASKS[who]}: ${text}.` : who === DRIVER ? `Driver: ${text}.` : text);
    this.drawButtons();
    this.drawCounts(moment);
    this.drawTasks(moment);
    this.drawWaiting(moment);
    this.drawCommits(moment);
    this.drawHomes(moment);
    this.drawRing();
  }

  drawButtons() {
    const { phase } = this.station, now = this.shown === this.history.last();
    const off = { step: phase !== "on", run: phase !== "on", cut: phase !== "on", open: phase !== "off", many: phase === "broken",
      carry: now, earlier: this.shown === 0, later: now };
    for (const [id, is] of Object.entries(off)) byId(id).disabled = is || this.busy || (this.choice.open && id !== "carry");
    for (const id of ["find", "again", "with-seed", "program", "seed"]) byId(id).disabled = this.busy || this.choice.open;
    byId("run").textContent = this.timer ? "Pause" : "Run slowly";
    byId("run").setAttribute("aria-pressed", String(Boolean(this.timer)));
    byId("said").setAttribute("aria-live", this.timer ? "off" : "polite");
    const { program } = this.station;
    byId("find").hidden = program === 0;
    byId("wrong").hidden = program === 0;
    byId("wrong").textContent = "Wrong on purpose: the station runs the program \u201c" + PROGRAMS[program] + "\u201d.";
    const slider = byId("slider");
    slider.max = String(Math.max(0, this.history.last()));
    slider.value = String(this.shown);
    slider.disabled = this.busy || this.choice.open;
    const place = "Moment " + (this.shown + 1 + this.history.dropped) + " of " + (this.history.last() + 1 + this.history.dropped);
    slider.setAttribute("aria-valuetext", place);
    byId("moment").textContent = place + (now ? "" : ", in the past");
  }

  drawCounts(moment) {
    fill(byId("counts"), COUNTS.map(([key, name]) => el("div", { class: key === "differences" ? (moment.counts[key] ? "bad" : "good") : null },
      el("dt", null, name), el("dd", { id: "count-" + key }, moment.counts[key].toLocaleString("en")))));
  }

  drawTasks(moment) {
    const holds = ({ held, logged }) => held < 0 ? "begun" : "holds home " + held + (logged ? ", " + logged + " logged" : "");
    const state = writer => moment.phase === "off" ? "no power" : writer.open ? holds(writer) : "idle";
    fill(byId("tasks"), moment.writers.map((writer, w) => el("tr", { class: moment.said.who === w ? "acts" : null },
      el("td", { class: "number" }, String(w)), el("th", { scope: "row" }, TASKS[w]), el("td", null, state(writer)))));
    const names = ["live", "dead", "free"];
    byId("usage").textContent = moment.usage ? "Places of the log: " + names.map((name, i) => moment.usage[i] + " " + name).join(", ")
      + (moment.usage[3] ? " (" + moment.usage[3] + " promised)" : "") + "." : "The power is off. Only lasting memory is left.";
  }

  drawWaiting(moment) {
    const words = stretch => {
      const lists = stretch.filter(block => block.part === 0).map(block => block.kind + (block.kind === "KW" ? "" : " " + block.place));
      return lists.length > 14 ? lists.slice(0, 12).join(", ") + " and " + (lists.length - 12) + " more" : lists.join(", ") || "nothing";
    };
    const total = moment.waiting.reduce((sum, stretch) => sum + stretch.length, 0);
    const fences = plural(moment.waiting.length - 1, "fence");
    byId("waiting-told").textContent = total ? `${plural(total, "block")} on the way, ${fences} between or behind them.` : "Nothing is on its way.";
    fill(byId("waiting"), moment.waiting.flatMap((stretch, i) => [
      stretch.length || i < moment.waiting.length - 1 ? el("li", null, words(stretch)) : null,
      i < moment.waiting.length - 1 ? el("li", { class: "fence" }, "fence") : null]));
  }

  drawCommits({ commits }) {
    const shown = commits.slice(-MOST_LISTED), more = commits.length - shown.length;
    fill(byId("commits"), shown.map(commit => el("li", { class: commit.fate }, el("b", null, "commit " + commit.number + " "), TASKS[commit.writer]
      + ", " + (commit.homes.length === 1 ? "home " : "homes ") + commit.homes.join(" ") + ": ", el("span", null, FATES[commit.fate]))));
    const which = more ? `The last ${shown.length} of ${commits.length}` : commits.length ? plural(commits.length, "commit") : "No commit";
    byId("commits-told").textContent = which + " since the last cut.";
  }

  drawHomes(moment) {
    const { result } = moment, opened = result && result.opened;
    fill(byId("homes"), homesList(moment.byBook, opened ? result.found : null));
    byId("homes-told").textContent = opened ? "What the opening found, beside the book's run of commits."
      : moment.phase === "off" ? "The book's run: what the next opening must bring back." : "The book: every home after all commits so far.";
    const verdict = byId("verdict");
    verdict.className = opened ? (result.broken ? "bad" : "good") : "";
    fill(verdict, this.verdict(moment));
  }

  verdict({ result, phase }) {
    if (!result) return [];
    const run = plural(result.back.length, "commit") + " of this run came through the cut, " + result.gone.length + " did not.";
    if (!result.opened) return [el("p", null, run)];
    if (!result.broken) return [el("p", null, el("b", null, "No difference. "), "Every home is as the book says. " + run)];
    return [el("p", null, el("b", null, "Broken. "), phase === "broken" ? "This is what the theorem excludes." : ""),
      el("ul", null, hurtWords(result).map(text => el("li", null, text)))];
  }

  /* The ring, and in inspect's words what an opening would find in lasting memory now. */
  async drawRing() {
    const moment = this.moment(), drawing = ++this.drawing;
    const { output } = await inspect(moment.image, "station.img", { json: true });
    if (drawing !== this.drawing) return;
    const told = JSON.parse(output), states = blockStates(told, moment.image);
    fill(byId("ring"), ringPicture(told, states, this.onTheWay(moment)));
    fill(byId("legend"), legend(states, [["going", "on its way"], ...(this.choice.open ? [["going lands", "chosen to land"]] : [])]));
    byId("walk").textContent = `An opening would now find ${plural(told.commits.length, "commit")} in the log; those of trimmed groups are home. `
      + `The walk stopped: ${told.stop.why}.`;
  }

  /* Group blocks on their way; at a cut those before a fence that has passed land, the next ones can be picked. */
  onTheWay(moment) {
    const { choice } = this, outline = (block, name, act) => block.kind !== "GW" ? null
      : svg("path", { d: cellPath(block.place, block.part, STATION_GROUPS), class: "going" + name, on: act ? { click: act } : {} });
    if (!choice.open) return moment.waiting[0].map(block => outline(block, "")).filter(Boolean);
    const sure = moment.waiting.slice(0, choice.fences).flat().map(block => outline(block, " lands"));
    const open = choice.blocks().map((block, i) => outline(block, choice.chosen[i] ? " lands pick" : " pick", () => choice.toggle(i)));
    return [...sure, ...open].filter(Boolean);
  }
}
