/*
 * A pump station: the store, the lasting memory with its driver, the book and
 * the tasks. Every call goes to the store and, with its answer, into the book.
 */
const STATION_GROUPS = 8, STATION_HOMES = 40, CROWD = 96;
const PROGRAMS = ["as proved", "no fence", "blanking first", "replay by position"];
const NO_FENCE = 1;

const OPENED_RIGHT = "The opening's own writes are still on their way: cut now, and the cut falls inside the opening.";
const OPENED_WRONG = "Opened: what is found is NOT the book's run. Go back through the history to see how, or start again.";

/* Who makes a call that is no task's. */
const DRIVER = -1;

function plural(count, one, many = one + "s") {
  return count.toLocaleString("en") + " " + (count === 1 ? one : many);
}

class Station {
  static async make() {
    return new Station(await Store.make(STATION_GROUPS, STATION_HOMES));
  }

  constructor(store) {
    this.kagutin = store;
    this.groups = STATION_GROUPS;
    this.homes = STATION_HOMES;
  }

  /* A new format, all of it landed, and its opening. */
  reset(seed, program) {
    this.seed = seed;
    this.program = program;
    this.kagutin.program.choose_program(0);
    this.book = new Book(this.homes);
    this.lasting = new Lasting(this.groups, this.homes, block => {
      if (block.row >= 0) this.book.landed(block.row, block.part);
    });
    this.counts = { steps: 0, cuts: 0, inside: 0, commits: 0, back: 0, gone: 0, refused: 0, owed: 0, differences: 0 };
    this.phase = "on"; /* on, off (cut, not opened yet), broken (a difference was found) */
    this.round = false;
    this.opening = false;
    this.result = null;
    this.lasting.submit(this.kagutin.call("format").records, "format");
    this.lasting.passAll();
    this.lasting.submit(this.kagutin.openImage(this.lasting.bytes).records, "open");
    this.lasting.passAll();
    this.kagutin.program.choose_program(program);
    this.tasks = new Tasks(this, new Chance(seed));
    this.said = { code: 0, text: "A new store: " + this.groups + " groups, " + this.homes + " homes, formatted and opened." };
  }

  /* Sends a done call's records to the driver; counts a refused one. */
  take(reply, call) {
    if (reply.code) this.counts.refused += 1;
    this.lasting.submit(reply.records, call);
    if (this.program === NO_FENCE) this.lasting.crowd(CROWD);
    return reply.code === 0;
  }

  /* What a call was and what it answered, in words. */
  tell(reply, who, what, done = "") {
    const text = reply.code ? what + ": refused, " + reply.code + ", " + this.kagutin.answerText(reply.code) : what + done;
    return { code: reply.code, who, text };
  }

  begin(writer) {
    const reply = this.kagutin.call("begin", writer);
    if (this.take(reply, "begin")) this.book.begin(writer);
    return this.tell(reply, writer, "begin");
  }

  reserve(writer, places) {
    const reply = this.kagutin.call("reserve", writer, places);
    if (this.take(reply, "reserve")) this.book.begin(writer);
    return this.tell(reply, writer, "reserve " + plural(places, "place"));
  }

  abort(writer) {
    const reply = this.kagutin.call("abort", writer);
    if (this.take(reply, "abort")) this.book.abort(writer);
    return this.tell(reply, writer, "abort");
  }

  store(writer, home, block) {
    const reply = this.kagutin.store(writer, home, block);
    if (this.take(reply, "store")) this.book.store(writer, home, block);
    return this.tell(reply, writer, "store home " + home, ", " + homeName(home) + this.handedOn(reply));
  }

  commit(writer) {
    const reply = this.kagutin.call("commit", writer);
    if (this.take(reply, "commit")) {
      this.book.commit(writer, reply.figure);
      if (reply.figure) this.counts.commits += 1;
    }
    return this.tell(reply, writer, "commit", (reply.figure ? ", ticket " + reply.figure : " of nothing") + this.handedOn(reply));
  }

  handedOn(reply) {
    return reply.records.some(record => record.kind === "GW") ? "; the group is full and handed on" : "";
  }

  /* An event above the store: one transaction of homes in a row. */
  transact(writer, reply, home, blocks, what) {
    if (this.take(reply, "transact")) {
      this.book.transact(writer, home, blocks, reply.figure);
      this.counts.commits += 1;
    }
    return this.tell(reply, writer, what, ", ticket " + reply.figure + this.handedOn(reply));
  }

  pump(writer, pump, starts, second) {
    const block = pumpAfter(this.book.blockOf(PUMP_HOME + pump), starts, second);
    const reply = this.kagutin.call(starts ? "pump_start" : "pump_stop", writer, pump, second);
    return this.transact(writer, reply, PUMP_HOME + pump, block, "pump " + pump + (starts ? " starts" : " stops"));
  }

  openAlarms() {
    return readAlarms(this.book.newest.subarray(BLOCK * ALARM_HOME, BLOCK * (ALARM_HOME + ALARM_HOMES))).list;
  }

  arrives(writer, identity, alarmClass, second) {
    const list = [...this.openAlarms(), { identity, class: alarmClass, second }];
    const reply = this.kagutin.call("alarm_arrive", writer, identity, alarmClass, second);
    return this.transact(writer, reply, ALARM_HOME, alarmBytes(list), "alarm " + identity + " of class " + alarmClass + " arrives");
  }

  clears(writer, identity) {
    const list = this.openAlarms().filter(alarm => alarm.identity !== identity);
    const reply = this.kagutin.call("alarm_clear", writer, identity);
    return this.transact(writer, reply, ALARM_HOME, alarmBytes(list), "alarm " + identity + " clears");
  }

  bands(writer, rows) {
    const reply = this.kagutin.setBands(writer, bandRows(rows));
    return this.transact(writer, reply, BAND_HOME, bandBlocks(rows), "new depth bands, " + rows.length + " rows");
  }

  /* A writer with nothing open reads what is committed: by the book, else the program is wrong. */
  read(writer, home) {
    const reply = this.kagutin.call("read", writer, home);
    this.take(reply, "read");
    const block = this.kagutin.block, wants = this.book.blockOf(home);
    if (reply.code === 0 && !wants.every((byte, i) => byte === block[i])) {
      this.counts.differences += 1;
      this.phase = "broken";
      this.result = null;
      return this.tell(reply, writer, "read home " + home, ": NOT what the book says");
    }
    return this.tell(reply, writer, "read home " + home, ", " + homeName(home) + ": as the book says");
  }

  flush() {
    const reply = this.kagutin.call("flush");
    if (this.take(reply, "flush")) this.book.flush();
    const group = reply.records.some(record => record.kind === "GW");
    return this.tell(reply, DRIVER, "flush", group ? ": the part-filled group is handed on, then a fence" : ": a fence");
  }

  /* The driver waits for every fence, then says so. */
  confirm() {
    this.lasting.passAll();
    const reply = this.kagutin.call("confirm");
    if (this.take(reply, "confirm")) this.book.confirm(reply.figure);
    this.counts.owed = this.book.commits.filter(commit => commit.owed).length;
    return this.tell(reply, DRIVER, "confirm", ": all fences have passed, commits up to ticket " + reply.figure + " are durable");
  }

  /* settle, trim. */
  plain(name) {
    const reply = this.kagutin.call(name);
    this.take(reply, name);
    const homes = reply.records.filter(record => record.kind === "HW").length;
    const moved = reply.records.some(record => record.kind === "KW");
    const freed = moved ? ": old groups are free, a new header" : ": nothing to free";
    return this.tell(reply, DRIVER, name, name === "settle" ? ": " + plural(homes, "home") + " written" : freed);
  }

  beginRound() {
    const reply = this.kagutin.call("begin_round");
    this.round = this.take(reply, "begin_round");
    return this.tell(reply, DRIVER, "a round of settling in small steps begins");
  }

  stepRound(homes) {
    const reply = this.kagutin.call("step_round", homes);
    this.take(reply, "step_round");
    const written = reply.records.filter(record => record.kind === "HW").length;
    const over = reply.code !== 0 || reply.records.some(record => record.kind === "FN") || (this.program === NO_FENCE && written < homes);
    this.round = !over;
    return this.tell(reply, DRIVER, "a step of the round", ": " + plural(written, "home") + " written" + (over ? ", the round is over" : ""));
  }

  fencePasses() {
    const blocks = this.lasting.passFence();
    return { code: 0, who: DRIVER, text: "a fence passes: " + plural(blocks, "block") + " before it " + (blocks === 1 ? "has" : "have") + " landed" };
  }

  /* One call of a task or of the driver. */
  step() {
    this.counts.steps += 1;
    this.opening = false;
    this.said = this.tasks.step();
    return this.said;
  }

  /* Power is cut when so many more fences have passed; chosen says which blocks of the next stretch land. */
  cut(fences, chosen) {
    const blocks = this.lasting.stretch(fences).length;
    this.counts.cuts += 1;
    if (this.opening) this.counts.inside += 1;
    this.lasting.cut(fences, chosen);
    const { back, gone, owedLost } = this.book.cut();
    this.counts.back += back.length;
    this.counts.gone += gone.length;
    const landed = chosen.slice(0, blocks).filter(Boolean).length;
    this.result = { back, gone, owedLost, blocks, landed, inside: this.opening, opened: false };
    this.phase = "off";
    this.round = false;
    this.said = { code: 0, text: "The power is cut" + (this.opening ? " inside an opening" : "") + ": " + landed + " of "
      + plural(blocks, "block") + " landed" + (fences ? ", after " + plural(fences, "more fence") : "") + "." };
  }

  /* Loads both areas, opens, and holds the homes against the book's run. */
  open() {
    const reply = this.kagutin.openImage(this.lasting.bytes);
    this.lasting.submit(reply.records, "open");
    this.opening = true;
    const found = this.kagutin.area.slice();
    const { differ, hurt } = this.book.compare(found);
    const owedLost = this.result ? this.result.owedLost : [];
    const broken = reply.code !== 0 || differ.length > 0 || owedLost.length > 0;
    this.result = { ...this.result, opened: true, code: reply.code, brought: reply.figure, found, differ, hurt, broken };
    if (broken) this.counts.differences += 1;
    this.phase = broken ? "broken" : "on";
    this.tasks.reset();
    this.said = { code: reply.code, text: broken ? OPENED_WRONG
      : "Opened: " + plural(reply.figure, "transaction") + " brought back. All " + this.homes + " homes are as the book says. " + OPENED_RIGHT };
    return !broken;
  }

  /* A chance choice of fences and blocks, as a cut in a storm would make it. */
  chanceCut(chance) {
    const fences = chance.below(this.lasting.fences() + 1);
    const blocks = this.lasting.stretch(fences).length;
    const mode = chance.below(7), one = chance.below(blocks || 1);
    const chosen = Array.from({ length: blocks }, (_, i) => {
      if (mode === 0) return false;
      if (mode === 1) return true;
      if (mode === 2) return i !== one;
      if (mode === 3) return i === one;
      return chance.below(mode === 4 ? 10 : 2) !== 0;
    });
    return { fences, chosen };
  }
}
