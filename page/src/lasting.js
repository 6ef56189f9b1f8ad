/*
 * Lasting memory and the driver in front of it. Blocks of 64 bytes land by
 * themselves. waiting is a list of stretches, each a list of blocks, with one
 * fence between two stretches: when a fence passes all before it has landed.
 */
class Lasting {
  /* landed(block) is told of each block that lands. */
  constructor(groups, homes, landed) {
    this.groups = groups;
    this.homes = homes;
    this.bytes = new Uint8Array(HEADER + GROUP * groups + BLOCK * homes);
    this.waiting = [[]];
    this.rows = 0; /* groups handed on by stores, commits and flushes */
    this.landed = landed;
  }

  /* The blocks of a record. An opening's and a format's groups are no rows of the book. */
  blocksOf(record, call) {
    const { kind, place, bytes } = record;
    if (kind === "KW") return [{ kind, place: 0, part: 0, at: 0, bytes, call, row: -1 }];
    if (kind === "HW") {
      return [{ kind, place, part: 0, at: HEADER + GROUP * this.groups + BLOCK * place, bytes, call, row: -1 }];
    }
    const row = call === "open" || call === "format" ? -1 : this.rows++;
    return Array.from({ length: 8 }, (_, part) => ({
      kind, place, part, at: HEADER + GROUP * place + BLOCK * part, bytes: bytes.slice(BLOCK * part, BLOCK * part + BLOCK), call, row,
    }));
  }

  /* Takes a call's records. */
  submit(records, call) {
    for (const record of records) {
      if (record.kind === "FN") this.waiting.push([]);
      else this.waiting[this.waiting.length - 1].push(...this.blocksOf(record, call));
    }
  }

  /* Fences that have not passed yet. */
  fences() {
    return this.waiting.length - 1;
  }

  land(block) {
    this.bytes.set(block.bytes, block.at);
    this.landed(block);
  }

  /* The next fence passes; returns how many blocks it had to wait for. */
  passFence() {
    const blocks = this.waiting.shift();
    blocks.forEach(block => this.land(block));
    return blocks.length;
  }

  passAll() {
    while (this.fences()) this.passFence();
  }

  /* For a driver without fences: the oldest blocks land by themselves when too many wait. */
  crowd(most) {
    const blocks = this.waiting[0];
    while (blocks.length > most) this.land(blocks.shift());
  }

  /* The blocks among which a cut chooses, when so many more fences have passed. */
  stretch(fences) {
    return this.waiting[Math.min(fences, this.fences())];
  }

  /* Power is cut: what has not landed never will. */
  cut(fences, chosen) {
    for (let i = 0; i < fences; i++) this.passFence();
    this.waiting[0].forEach((block, i) => {
      if (chosen[i]) this.land(block);
    });
    this.waiting = [[]];
  }
}
