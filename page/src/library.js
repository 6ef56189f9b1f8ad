/* The C program, compiled to WebAssembly: one instance for each store and for each file that is inspected. */
const HEADER = 64, GROUP = 512, BLOCK = 64, ENTRIES = 7;
const MOST_GROUPS = 1024, MOST_HOMES = 65535;
const MOST_IMAGE = HEADER + GROUP * MOST_GROUPS + BLOCK * MOST_HOMES;

/* Thrown where the C program ends itself. */
class Left extends Error {
  constructor(status) {
    super("left with status " + status);
    this.status = status;
  }
}

const library = {
  module: null,

  async load(base64) {
    const bytes = Uint8Array.from(atob(base64), c => c.charCodeAt(0));
    library.module = await WebAssembly.compile(bytes);
  },

  /* said[1] and said[2] gather output and errors; file is what the C program reads. */
  async instance(file = new Uint8Array(0), said = [[], [], []]) {
    let memory = null;
    const page = {
      say: (stream, at, size) => said[stream].push(new Uint8Array(memory.buffer, at, size).slice()),
      leave: status => { throw new Left(status); },
      file_size: () => file.length,
      file_read: (to, at, size) => new Uint8Array(memory.buffer, to, size).set(file.subarray(at, at + size)),
    };
    const made = await WebAssembly.instantiate(library.module, { page });
    memory = made.exports.memory;
    return made.exports;
  },
};

function joinText(chunks) {
  const decoder = new TextDecoder();
  return chunks.map(chunk => decoder.decode(chunk, { stream: true })).join("") + decoder.decode();
}

/* Puts words into the program's memory, as a C main takes them. */
function putWords(program, words) {
  const encoder = new TextEncoder();
  const at = words.map(word => {
    const bytes = encoder.encode(word);
    const place = program.room(bytes.length + 1);
    new Uint8Array(program.memory.buffer, place, bytes.length).set(bytes);
    return place;
  });
  const list = program.room(4 * (words.length + 1));
  new Uint32Array(program.memory.buffer, list, words.length).set(at);
  return list;
}

/*
 * Runs the inspector over bytes: its status, output and errors, the same that
 * the program of the command line gives. options: groups, homes, start, json.
 */
async function inspect(bytes, name, options = {}) {
  const said = [[], [], []];
  const program = await library.instance(bytes, said);
  const words = ["inspect"];
  if (options.json) words.push("--json");
  for (const key of ["groups", "homes", "start"]) {
    if (options[key] !== undefined && options[key] !== "") words.push("--" + key, String(options[key]));
  }
  words.push(name.startsWith("-") ? "./" + name : name);
  let status;
  try {
    status = program.inspect(words.length, putWords(program, words));
  } catch (left) {
    if (!(left instanceof Left)) throw left;
    status = left.status;
  }
  return { status, output: joinText(said[1]), errors: joinText(said[2]) };
}

const MARKS = { 0x47: "GW", 0x48: "HW", 0x4b: "KW", 0x46: "FN" };
const SIZES = { GW: 516, HW: 68, KW: 66, FN: 2 };

/* The records of a batch, with copies of their bytes. */
function readBatch(bytes) {
  const records = [];
  for (let at = 0; at < bytes.length;) {
    const kind = MARKS[bytes[at]];
    const body = kind === "KW" ? at + 2 : at + 4;
    const end = at + SIZES[kind];
    if (kind === "FN") records.push({ kind });
    else records.push({ kind, place: kind === "KW" ? 0 : bytes[at + 2] | bytes[at + 3] << 8, bytes: bytes.slice(body, end) });
    at = end;
  }
  return records;
}

/* One store: the lent memory, and the bare calls on it. */
class Store {
  static async make(groups, homes) {
    const program = await library.instance();
    if (!program.lend(groups, homes)) throw new Error("there is not enough memory for this store");
    return new Store(program, groups, homes);
  }

  constructor(program, groups, homes) {
    this.program = program;
    this.groups = groups;
    this.homes = homes;
  }

  /* Views are made anew each time: growing memory takes older ones away. */
  view(at, size) {
    return new Uint8Array(this.program.memory.buffer, at, size);
  }

  get log() {
    return this.view(this.program.log(), HEADER + GROUP * this.groups);
  }

  get area() {
    return this.view(this.program.area(), BLOCK * this.homes);
  }

  get block() {
    return this.view(this.program.block(), BLOCK * ENTRIES);
  }

  /* Answer, figure and records of a call. */
  call(name, ...words) {
    const code = this.program[name](...words) >>> 0;
    const figure = this.program.figure(0);
    const size = code === 0 ? this.program.figure(1) : 0;
    return { code, figure, records: size ? readBatch(this.view(this.program.batch(), size)) : [] };
  }

  /* A call that asks and writes no batch: its answer and figures. */
  ask(name, words, count) {
    const code = this.program[name](...words) >>> 0;
    return { code, figures: Array.from({ length: count }, (_, i) => this.program.figure(i)) };
  }

  /* The same, by the first writer whom the list of rights lets read; words follow the writer. */
  askAny(name, words, count) {
    const NO_READ = 20;
    let told;
    for (let writer = WRITERS - 1; writer >= 0; writer--) {
      told = this.ask(name, [writer, ...words], count);
      if (told.code !== NO_READ) break;
    }
    return told;
  }

  store(writer, home, block) {
    this.block.set(block);
    return this.call("store", writer, home);
  }

  setBands(writer, rows) {
    this.block.set(rows);
    return this.call("bands_set", writer, rows.length);
  }

  /* Loads both whole areas and opens. */
  openImage(image) {
    const size = HEADER + GROUP * this.groups;
    this.log.set(image.subarray(0, size));
    this.area.set(image.subarray(size, size + BLOCK * this.homes));
    return this.call("open");
  }

  /* What a number means, in the header's words. */
  answerText(code) {
    const bytes = new Uint8Array(this.program.memory.buffer, this.program.answer_text(code), 120);
    return new TextDecoder().decode(bytes.subarray(0, bytes.indexOf(0)));
  }
}
