/* What lies in the homes that have an owner, docs/HOMES.md: pumps, alarms, depth bands, rights. Read, and made for the book. */
const PUMP_HOME = 16, PUMPS = 8, ALARM_HOME = 24, ALARM_HOMES = 6, MOST_ALARMS = 48;
const WORDS = 59; /* bytes of a station's block that are words */
const BAND_HOME = 12, BAND_HOMES = 3, RIGHTS_HOME = 8, RIGHTS_HOMES = 4, NOTE_HOME = 32;

function number(bytes, at, width) {
  let value = 0;
  for (let i = width - 1; i >= 0; i--) value = 256 * value + bytes[at + i];
  return value;
}

function putNumber(bytes, at, width, value) {
  for (let i = 0; i < width; i++, value = Math.floor(value / 256)) bytes[at + i] = value % 256;
}

function allZeros(bytes, from = 0) {
  return bytes.subarray(from).every(byte => byte === 0);
}

/* A pump's block; fits: it is one. */
function readPump(block) {
  const pump = { starts: number(block, 0, 4), seconds: number(block, 4, 4), last: number(block, 8, 4), running: block[12] === 1 };
  pump.fits = block[12] <= 1 && pump.seconds <= pump.last && pump.starts >= block[12] && allZeros(block, 13);
  return pump;
}

/* The block after a start or a stop. */
function pumpAfter(block, starts, second) {
  const pump = readPump(block), next = new Uint8Array(BLOCK);
  putNumber(next, 0, 4, pump.starts + (starts ? 1 : 0));
  putNumber(next, 4, 4, pump.seconds + (starts ? 0 : second - pump.last));
  putNumber(next, 8, 4, second);
  next[12] = starts ? 1 : 0;
  return next;
}

function readAlarm(bytes, at) {
  return { identity: number(bytes, at, 2), class: bytes[at + 2], second: number(bytes, at + 3, 4) };
}

function putAlarm(bytes, at, alarm) {
  putNumber(bytes, at, 2, alarm.identity);
  bytes[at + 2] = alarm.class;
  putNumber(bytes, at + 3, 4, alarm.second);
}

/* Lowest class, then earliest second, then lowest identity. */
function graver(one, other) {
  return one.class - other.class || one.second - other.second || one.identity - other.identity;
}

/* The open alarms, in the order of arrival, and the gravest as it is kept. */
function readAlarms(bytes) {
  const count = Math.min(bytes[0], MOST_ALARMS), list = [];
  for (let i = 0; i < count; i++) list.push(readAlarm(bytes, 8 + 7 * i));
  const kept = readAlarm(bytes, 1), gravest = [...list].sort(graver)[0] || { identity: 0, class: 0, second: 0 };
  const fits = bytes[0] <= MOST_ALARMS && allZeros(bytes, 8 + 7 * count) && graver(kept, gravest) === 0
    && list.every(alarm => alarm.class >= 1 && alarm.class <= 9);
  return { list, gravest: kept, fits };
}

function alarmBytes(list) {
  const bytes = new Uint8Array(BLOCK * ALARM_HOMES);
  bytes[0] = list.length;
  if (list.length) putAlarm(bytes, 1, [...list].sort(graver)[0]);
  list.forEach((alarm, i) => putAlarm(bytes, 8 + 7 * i, alarm));
  return bytes;
}

/* The strip that the call takes, and the three blocks that the homes then hold. */
function bandRows(rows) {
  const bytes = new Uint8Array(5 * rows.length);
  rows.forEach((row, i) => {
    putNumber(bytes, 5 * i, 2, row.from);
    putNumber(bytes, 5 * i + 2, 2, row.to);
    bytes[5 * i + 4] = row.pumps;
  });
  return bytes;
}

function bandBlocks(rows) {
  const bytes = new Uint8Array(BLOCK * BAND_HOMES);
  bytes[0] = rows.length;
  bytes.set(bandRows(rows), 1);
  return bytes;
}

/* Rights: for each writer lists of ranges [first, number] to store to and to read. */
function rightsBlocks(writers) {
  const bytes = new Uint8Array(BLOCK * RIGHTS_HOMES);
  writers.forEach((writer, w) => [writer.store, writer.read].forEach((ranges, kind) => ranges.forEach((range, i) => {
    putNumber(bytes, 32 * w + 16 * kind + 4 * i, 2, range[0]);
    putNumber(bytes, 32 * w + 16 * kind + 4 * i + 2, 2, range[1]);
  })));
  return bytes;
}

/* What a home is for. */
function homeName(home) {
  if (home < WRITERS) return TASKS[home];
  if (home < BAND_HOME) return "rights";
  if (home < BAND_HOME + BAND_HOMES) return "depth bands";
  if (home >= PUMP_HOME && home < PUMP_HOME + PUMPS) return "pump " + (home - PUMP_HOME);
  if (home >= ALARM_HOME && home < ALARM_HOME + ALARM_HOMES) return "alarms";
  return home < NOTE_HOME ? "free" : "note";
}

function clockText(second) {
  const two = value => String(value).padStart(2, "0");
  return two(Math.floor(second / 3600)) + ":" + two(Math.floor(second / 60) % 60) + ":" + two(second % 60);
}

/* A block in few words. */
function blockText(home, block) {
  if (allZeros(block)) return "zeros";
  if (home >= PUMP_HOME && home < PUMP_HOME + PUMPS) {
    const pump = readPump(block);
    if (pump.fits) return pump.starts + (pump.starts === 1 ? " start, " : " starts, ") + clockText(pump.seconds) + (pump.running ? ", running" : "");
  }
  if (home >= RIGHTS_HOME && home < RIGHTS_HOME + RIGHTS_HOMES) {
    const writer = 2 * (home - RIGHTS_HOME);
    return `list of writers ${writer} and ${writer + 1}`;
  }
  if (home === ALARM_HOME && block[0] <= MOST_ALARMS) return block[0] + " open, gravest " + number(block, 1, 2) + " class " + block[3];
  if (home === BAND_HOME && block[0] <= 32) return block[0] + " rows, " + block[5] + " pumps at 0 mm";
  const text = String.fromCharCode(...block.subarray(0, WORDS)).replace(/\0+$/, "");
  return /^[ -~]+$/.test(text) ? text : Array.from(block.subarray(0, 8), byte => byte.toString(16).padStart(2, "0")).join("") + "…";
}
