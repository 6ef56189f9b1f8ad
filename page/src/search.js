/* A run of the station as a list of moves, so that it can be told in a link and played again. */
const MOST_STEPS = 50000, MOST_CUTS = 20000;

class Session {
  /* seen(session) is told after each move that is to be shown. */
  constructor(station, seen = () => {}) {
    this.station = station;
    this.seen = seen;
  }

  start(seed, program) {
    this.moves = [];
    this.station.reset(seed, program);
    this.seen(this);
  }

  /* Is the move one that can be made now? */
  may(kind) {
    return kind === "open" ? this.station.phase === "off" : this.station.phase === "on";
  }

  make(move) {
    if (!this.may(move.kind)) return false;
    this.moves.push(move);
    if (move.kind === "step") this.station.step();
    if (move.kind === "cut") this.station.cut(move.fences, move.chosen);
    if (move.kind === "open") this.station.open();
    this.seen(this);
    return true;
  }

  /* The chance by which cuts are chosen: its own, so that the tasks' stays as it is. */
  chance() {
    return new Chance(Math.imul(this.station.seed + 1, 0x9e3779b1) ^ this.station.counts.cuts);
  }

  /* Work, a cut by chance and an opening, now and then cut again; as often as told, or until a difference shows. */
  async chanceCuts(count, told = () => {}) {
    const { station } = this, chance = this.chance();
    if (station.phase === "broken") return;
    this.moves.push({ kind: "chance", count });
    if (station.phase === "off") station.open();
    const end = station.counts.cuts + count;
    while (station.counts.cuts < end && station.phase === "on") {
      if (!station.opening || !chance.oneIn(4)) for (let i = 1 + chance.below(90); i > 0; i--) station.step();
      const { fences, chosen } = station.chanceCut(chance);
      station.cut(fences, chosen);
      station.open();
      if (station.counts.cuts % 50 === 0) await told(station.counts.cuts + count - end);
    }
    this.seen(this);
  }

  async play(seed, program, moves) {
    this.start(seed, program);
    for (const move of moves) {
      if (move.kind === "chance") await this.chanceCuts(move.count, breathe);
      else if (!this.make(move)) break;
    }
  }
}

/* A short history in which a wrong program shows itself: work, a cut, an opening, perhaps a cut inside it. Null if none is found. */
async function findBreak(station, program, from, told) {
  const session = new Session(station);
  for (let seed = from; seed < from + 4000; seed++) {
    const chance = new Chance(Math.imul(seed, 0x85ebca6b));
    session.start(seed, program);
    for (let i = 8 + chance.below(40); i > 0; i--) session.make({ kind: "step" });
    for (let cuts = 0; cuts < 2 && station.phase === "on"; cuts++) {
      session.make({ kind: "cut", ...station.chanceCut(chance) });
      session.make({ kind: "open" });
    }
    if (station.phase === "broken" && tells(station.result)) return { seed, program, moves: session.moves };
    if (seed % 50 === 0) await told(seed - from);
  }
  return null;
}

/* Does a difference show in the homes, as a commit lost or by half? */
function tells(result) {
  return result.hurt.length > 0;
}
