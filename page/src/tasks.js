/*
 * The eight tasks of a pump station. Each step makes one call. Task w has home
 * w; homes from 32 on are notes that all tasks write. Run hours starts and
 * stops pumps, alarms raises and clears them, service sets the depth bands and
 * reads any home, the radio reserves its places.
 */
const TASKS = ["level", "switching", "run hours", "alarms", "radio", "energy", "rain gauge", "service"];
const LEVEL = 0, SWITCHING = 1, RUN_HOURS = 2, ALARMS = 3, RADIO = 4, SERVICE = 7;
const ALARM_KINDS = 12, STEP_SECONDS = 40;

/* Each task its own home and the notes, some what they look after; service reads all. */
function stationRights() {
  const own = { [RUN_HOURS]: [PUMP_HOME, PUMPS], [ALARMS]: [ALARM_HOME, ALARM_HOMES], [SERVICE]: [BAND_HOME, BAND_HOMES] };
  return rightsBlocks(TASKS.map((_, w) => {
    const ranges = [[w, 1], [NOTE_HOME, 65535 - NOTE_HOME]];
    if (own[w]) ranges.push(own[w]);
    return { store: ranges, read: w === SERVICE ? [[0, 65535]] : ranges };
  }));
}

class Tasks {
  constructor(station, chance) {
    this.station = station;
    this.chance = chance;
    this.second = 0;
    this.transactions = 0;
    this.reset();
  }

  /* After a cut: all tasks begin anew; the list of rights comes first if it is not there. */
  reset() {
    const { book } = this.station;
    const list = stationRights();
    this.plans = TASKS.map(() => null);
    this.todo = [];
    if (list.some((byte, i) => byte !== book.newest[BLOCK * RIGHTS_HOME + i])) {
      this.plans[0] = this.plan(0, Array.from({ length: RIGHTS_HOMES }, (_, i) => RIGHTS_HOME + i));
      this.plans[0].blocks = home => list.slice(BLOCK * (home - RIGHTS_HOME), BLOCK * (home - RIGHTS_HOME) + BLOCK);
      this.todo = ["begin", "store", "store", "store", "store", "commit"].map(() => () => this.advance(0));
    }
  }

  plan(writer, homes) {
    this.transactions += 1;
    return { homes, next: 0, open: false, givesUp: this.chance.oneIn(12), tried: 0, number: this.transactions,
      blocks: (home, i) => this.block(writer, home, i, homes.length) };
  }

  /* One call. Returns what was done, in words. */
  step() {
    this.second += this.chance.below(STEP_SECONDS);
    if (this.todo.length) return this.todo.shift()();
    const draw = this.chance.below(100), { station } = this;
    if (draw < 9 && station.lasting.fences()) return station.fencePasses();
    if (draw < 14) return station.flush();
    if (draw < 17) return station.confirm();
    if (draw < 20) return this.settleSome();
    if (draw < 22) return station.plain("trim");
    return this.taskStep(this.chance.below(WRITERS));
  }

  settleSome() {
    const { station, chance } = this;
    if (station.round) return station.stepRound(1 + chance.below(3));
    return chance.oneIn(2) ? station.beginRound() : station.plain("settle");
  }

  taskStep(writer) {
    if (this.plans[writer]) return this.advance(writer);
    if (this.chance.oneIn(40)) return this.trespass(writer);
    if (writer === RUN_HOURS && !this.chance.oneIn(5)) return this.pumpEvent();
    if (writer === ALARMS && !this.chance.oneIn(4)) return this.alarmEvent();
    if (writer === SERVICE && this.chance.oneIn(3)) return this.station.read(SERVICE, this.chance.below(this.station.homes));
    if (writer === SERVICE && this.chance.oneIn(4)) return this.setBands();
    const homes = this.chance.oneIn(8) ? [] : [writer];
    const notes = this.station.homes - NOTE_HOME;
    for (let i = this.chance.below(4); i > 0; i--) {
      homes.splice(this.chance.below(homes.length + 1), 0, NOTE_HOME + this.chance.below(notes));
    }
    this.plans[writer] = this.plan(writer, homes);
    return this.advance(writer);
  }

  /* The next call of a task's transaction: begin, a store, then commit or abort. */
  advance(writer) {
    const plan = this.plans[writer], { station } = this;
    if (!plan) return station.plain("trim");
    if (!plan.open) {
      const places = writer === RADIO ? plan.homes.length : 0;
      const done = places ? station.reserve(writer, places) : station.begin(writer);
      plan.open = done.code === 0;
      return plan.open ? done : this.waits(writer, done);
    }
    if (plan.next < plan.homes.length) {
      const home = plan.homes[plan.next], done = station.store(writer, home, plan.blocks(home, plan.next));
      if (done.code === 0) plan.next += 1;
      return done.code === 0 ? done : this.waits(writer, done);
    }
    const done = plan.givesUp && !plan.homes.includes(RIGHTS_HOME) ? station.abort(writer) : station.commit(writer);
    if (done.code !== 0) return this.waits(writer, done);
    this.plans[writer] = null;
    return done;
  }

  /* The log is full: make room, and try again; the second time give up. */
  waits(writer, done) {
    const plan = this.plans[writer];
    plan.tried += 1;
    if (plan.tried > 2) {
      this.plans[writer] = null;
      if (plan.open) this.todo.push(() => this.station.abort(writer));
    } else {
      this.makeRoom();
    }
    return done;
  }

  makeRoom() {
    const { station } = this;
    if (station.round) this.todo.push(() => station.stepRound(99));
    this.todo.push(() => station.flush(), () => station.plain("settle"), () => station.confirm(), () => station.plain("trim"));
  }

  /* A task stores to a home that is not its own; the list of rights refuses it. */
  trespass(writer) {
    const home = PUMP_HOME + this.chance.below(PUMPS);
    if (writer === RUN_HOURS) return this.pumpEvent();
    return this.station.store(writer, home, new Uint8Array(BLOCK));
  }

  pumpEvent() {
    const pump = this.chance.below(4), block = this.station.book.blockOf(PUMP_HOME + pump);
    return this.orRoom(this.station.pump(RUN_HOURS, pump, !readPump(block).running, this.second));
  }

  alarmEvent() {
    const { station, chance } = this;
    const { list } = readAlarms(station.book.newest.subarray(BLOCK * ALARM_HOME, BLOCK * (ALARM_HOME + ALARM_HOMES)));
    const identity = 1 + chance.below(ALARM_KINDS);
    const open = list.some(alarm => alarm.identity === identity);
    return this.orRoom(open ? station.clears(ALARMS, identity) : station.arrives(ALARMS, identity, 1 + chance.below(9), this.second));
  }

  setBands() {
    const edges = [800 + this.chance.below(500), 2000 + this.chance.below(900), 3500 + this.chance.below(900)];
    const rows = [0, ...edges].map((from, i) => ({ from, to: (edges[i] || 10000) - 1, pumps: i }));
    return this.orRoom(this.station.bands(SERVICE, rows));
  }

  orRoom(done) {
    if (done.code === 8) this.makeRoom();
    return done;
  }

  /* A block with words that can be read, then the transaction's number; its last byte is any. */
  block(writer, home, i, count) {
    const { chance } = this, bytes = new Uint8Array(BLOCK);
    const what = {
      [LEVEL]: () => "level " + (400 + chance.below(4000)) + " mm",
      [SWITCHING]: () => chance.below(5) + " pumps on",
      [RADIO]: () => "report sent",
      5: () => chance.below(900) / 10 + " kWh",
      6: () => chance.below(300) / 10 + " mm rain",
      [SERVICE]: () => "panel seen",
    }[writer];
    const text = TASKS[writer] + " " + (i + 1) + " of " + count + (home < WRITERS && what ? ", " + what() : "") + ", " + clockText(this.second);
    new TextEncoder().encodeInto(text.slice(0, WORDS - 1), bytes);
    putNumber(bytes, WORDS, 4, this.plans[writer].number);
    bytes[BLOCK - 1] = chance.below(256);
    return bytes;
  }
}
