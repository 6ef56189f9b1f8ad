/*
 * The book of commits: what the store must bring back. It is kept from the
 * calls' arguments and answers and from which blocks landed, never from the
 * store's memory.
 */
const WRITERS = 8;

class Book {
  constructor(homes) {
    this.homes = homes;
    this.kept = new Uint8Array(BLOCK * homes); /* homes after the run at the last cut */
    this.newest = this.kept.slice();           /* homes after all commits */
    this.owners = new Array(homes).fill(null); /* of each home: the commit of the run that wrote it last */
    this.number = 0;                           /* commits so far, less those that cuts took */
    this.rows = 0;
    this.landedRows = new Map();               /* row: a bit for each of its eight blocks */
    this.idle();
  }

  /* All writers idle, the row and the list since the last cut empty. */
  idle() {
    this.commits = [];
    this.row = 0; /* entries in the row that is being filled */
    this.writers = Array.from({ length: WRITERS }, () => ({ open: false, held: null, entries: [] }));
  }

  begin(writer) {
    this.writers[writer] = { open: true, held: null, entries: [] };
  }

  abort(writer) {
    this.writers[writer] = { open: false, held: null, entries: [] };
  }

  store(writer, home, block) {
    const record = this.writers[writer];
    if (record.held && record.held.home !== home) this.logHeld(record);
    record.held = { home, block: block.slice() };
  }

  /* What is held becomes the last entry of its transaction and of the row. */
  logHeld(record) {
    record.entries.push({ home: record.held.home, block: record.held.block, row: this.rows, place: this.row });
    record.held = null;
    this.row += 1;
    if (this.row === ENTRIES) this.handOn();
  }

  handOn() {
    this.rows += 1;
    this.row = 0;
  }

  flush() {
    if (this.row) this.handOn();
  }

  commit(writer, ticket) {
    const record = this.writers[writer];
    if (record.held) {
      this.logHeld(record);
      this.number += 1;
      this.commits.push({ number: this.number, writer, entries: record.entries, ticket, owed: false });
      for (const entry of record.entries) this.newest.set(entry.block, BLOCK * entry.home);
    }
    this.abort(writer);
  }

  /* A whole transaction: homes in a row, as the calls above the store write them. */
  transact(writer, home, blocks, ticket) {
    this.begin(writer);
    for (let i = 0; i < blocks.length; i += BLOCK) this.store(writer, home + i / BLOCK, blocks.subarray(i, i + BLOCK));
    this.commit(writer, ticket);
  }

  /* A confirm returned this mark. */
  confirm(mark) {
    for (const commit of this.commits) commit.owed = commit.owed || commit.ticket <= mark;
  }

  /* A block of a row has landed. */
  landed(row, part) {
    this.landedRows.set(row, (this.landedRows.get(row) || 0) | 1 << part);
  }

  hasLanded(entry) {
    const blocks = this.landedRows.get(entry.row) || 0;
    return (blocks & 1) !== 0 && (blocks >> entry.place + 1 & 1) !== 0;
  }

  /* Power is cut: the list stops before the first commit with an entry that has not landed. */
  cut() {
    let run = this.commits.findIndex(commit => !commit.entries.every(entry => this.hasLanded(entry)));
    if (run < 0) run = this.commits.length;
    const back = this.commits.slice(0, run), gone = this.commits.slice(run);
    for (const commit of back) {
      for (const entry of commit.entries) {
        this.kept.set(entry.block, BLOCK * entry.home);
        this.owners[entry.home] = commit;
      }
    }
    this.number -= gone.length;
    this.newest = this.kept.slice();
    this.landedRows.clear();
    this.idle();
    return { back, gone, owedLost: gone.filter(commit => commit.owed) };
  }

  blockOf(home) {
    return this.newest.subarray(BLOCK * home, BLOCK * home + BLOCK);
  }

  /*
   * Holds homes against the run: those that differ, and of the commits that
   * wrote them which are lost whole and which are there by half.
   */
  compare(area) {
    const differ = [];
    for (let home = 0; home < this.homes; home++) {
      for (let i = BLOCK * home; i < BLOCK * home + BLOCK; i++) {
        if (area[i] !== this.kept[i]) {
          differ.push(home);
          break;
        }
      }
    }
    const commits = new Set(differ.map(home => this.owners[home]).filter(Boolean));
    const hurt = [...commits].map(commit => {
      const owned = this.owners.map((owner, home) => owner === commit ? home : -1).filter(home => home >= 0);
      return { commit, lost: owned.filter(home => differ.includes(home)), there: owned.filter(home => !differ.includes(home)) };
    });
    return { differ, hurt };
  }
}
