/* An image or a FRAM dump, opened by dropping the file: everything that inspect tells, in its words. */
const MOST_FILE = 32 * 1024 * 1024, MOST_SHOWN = 200000;

/* Does one of the two places of a header hold twelve bytes and their complements? */
function isDump(bytes) {
  const whole = at => bytes.length >= at + 24 && [...Array(12).keys()].every(i => (bytes[at + i] ^ bytes[at + 12 + i]) === 0xff);
  return whole(0) || whole(32);
}

/* The image in a dump: the header's newer whole copy, as the FRAM driver itself joins it. */
async function imageOfDump(bytes) {
  const program = await library.instance(), at = program.room(HEADER), image = bytes.slice();
  new Uint8Array(program.memory.buffer, at, HEADER).set(bytes.subarray(0, HEADER));
  program.join_header(at);
  image.set(new Uint8Array(program.memory.buffer, at, HEADER));
  return image;
}

/* Do the proved calls above the store tell what the tables show? Only homes that hold what they should are asked for. */
function unitsAgree(store, told) {
  const same = (reply, ...wants) => reply.code !== 0 || wants.every((want, i) => want === reply.figures[i]);
  const { alarms, bands } = told, interval = 500 * 3600;
  const pumps = pumpsOf(told).filter(pump => pump.fits).every(({ pump, starts, seconds }) =>
    same(store.askAny("pump_hours", [pump], 2), starts, seconds)
    && same(store.askAny("pump_services", [pump, interval], 2), Math.floor(seconds / interval), seconds % interval));
  const gravest = alarms && alarms.open && (alarms.open.find(alarm => alarm.identity === alarms.gravest) || { identity: 0, class: 0, second: 0 });
  return pumps && (!gravest || same(store.askAny("alarm_gravest", [], 3), gravest.identity, gravest.class, gravest.second))
    && (!Array.isArray(bands) || bands.every(row => same(store.askAny("bands_look_up", [row.from], 3), row.from, row.to, row.pumps)));
}

class ImageView {
  say(text, bad = false) {
    byId("image-said").textContent = text;
    byId("image-said").className = bad ? "told bad" : "told";
  }

  /* Refuses a file that cannot be one without reading it. */
  async take(file) {
    this.clear();
    if (file.size === 0) return this.say(file.name + ": the file is empty.", true);
    if (file.size > MOST_FILE) {
      return this.say(file.name + ": this file is too large, " + file.size.toLocaleString("en") + " bytes. The largest image has "
        + MOST_IMAGE.toLocaleString("en") + "; files of up to " + MOST_FILE.toLocaleString("en") + " bytes are read. Nothing was opened.", true);
    }
    let bytes;
    try {
      bytes = new Uint8Array(await file.arrayBuffer());
    } catch (trouble) {
      return this.say(file.name + ": the file cannot be read. Is it a folder?", true);
    }
    return this.show(bytes, file.name);
  }

  clear() {
    fill(byId("image-out"));
    this.bytes = null;
    for (const id of ["at-groups", "at-homes", "at-start", "at-begin"]) byId(id).value = "";
    byId("image-options").hidden = true;
  }

  options() {
    return { groups: byId("at-groups").value, homes: byId("at-homes").value, start: byId("at-start").value };
  }

  async show(bytes, name) {
    this.bytes = bytes;
    this.name = name;
    byId("image-options").hidden = false;
    const begin = Number(byId("at-begin").value) || 0;
    let image = bytes.subarray(Math.min(begin, bytes.length)), dump = isDump(image);
    if (dump) image = await imageOfDump(image);
    const options = this.options();
    const [json, text] = [await inspect(image, name, { ...options, json: true }), await inspect(image, name, options)];
    if (!json.output) return this.refused(json);
    const told = JSON.parse(json.output);
    this.say(name + ": " + (told.damage.length ? plural(told.damage.length, "note") + " of damage, below." : "the image is sound.")
      + (dump ? " It is a dump of a FRAM; the newer whole copy of its header is taken." : ""), told.damage.length > 0);
    byId("image-options").open = told.damage.length > 0;
    return this.draw(told, image, text.output, json.output);
  }

  /* The inspector ended without output. Its words, and the fields in which to help it. */
  refused({ errors }) {
    fill(byId("image-out"));
    byId("image-options").open = true;
    this.say(errors.replace(/^inspect: /gm, "").replace(/\n+$/, "").replace(/give --groups N/, "give their number below") + ".", true);
  }

  async draw(told, image, text, json) {
    const states = blockStates(told, image), homes = openedHomes(told), proved = await this.proved(told, image, homes);
    const part = (title, ...inside) => el("section", { class: "part" }, el("h3", null, title), inside);
    fill(byId("image-out"),
      part("Header and places", this.headerList(told)),
      part("The ring of groups", el("div", { class: "ring-row" }, el("figure", null, ringPicture(told, states)), legend(states))),
      part("Entries and their transactions", entriesTable(told)),
      part("What comes back", commitsTable(told), el("p", { id: "stop" }, "The walk stopped: " + told.stop.why + "."
        + (told.stop.unreached ? " Closing entries after that: " + told.stop.unreached + "." : "")), el("p", { id: "proved" }, proved)),
      part("Wear of the pumps", wearPart(told)),
      part("Depth bands", bandsPart(told)),
      part("Alarms", alarmsPart(told)),
      part("Rights", rightsPart(told)),
      part("Homes", homesTable(told, homes)),
      part("Damage", told.damage.length ? el("ul", { id: "damage" }, told.damage.map(note => el("li", null, note))) : el("p", null, "None.")),
      part("What inspect prints", this.printed("text", text, this.name + ".txt"), this.printed("JSON", json, this.name + ".json")));
  }

  /* inspect's lines on the image and its header, in its words. */
  headerList(told) {
    const { header, places } = told, last = header.start + header.groups - 1;
    const shape = `start ${header.start} ${header.start_from}, ${header.groups} groups, ${header.homes} homes`;
    const rows = [["image", this.name + ", " + told.bytes.toLocaleString("en") + " bytes"],
      ["header", (header.fits ? "fits" : "DAMAGED") + "; " + shape],
      ["live", "groups " + header.start + " to " + last + ", positions " + 7 * header.start + " to " + (7 * last + 6)]];
    if (header.worn_out) rows.push(["worn", "out: an opening would move the start past 2^47 and is refused; homes as it would leave them"]);
    rows.push(["places", 7 * header.groups + ": " + places.committed + " with entries that come back, " + places.others + " with others, "
      + places.torn + " torn, " + places.unused + " unused" + (places.not_read ? ", " + places.not_read + " NOT READ, beyond the end of the file" : "")]);
    return el("dl", { class: "lines" }, rows.map(([name, value]) => [el("dt", null, name), el("dd", null, value)]));
  }

  /* The proved program opens a copy; its homes must be the inspector's. */
  async proved(told, image, homes) {
    if (told.not_read) return "The file is cut off: no program can open it, and what was not read is not known.";
    const store = await Store.make(told.header.groups, told.header.homes);
    const whole = new Uint8Array(HEADER + GROUP * told.header.groups + BLOCK * told.header.homes);
    whole.set(image.subarray(0, whole.length));
    const reply = store.openImage(whole);
    if (reply.code) return "The proved program refuses to open this image: " + reply.code + ", " + store.answerText(reply.code) + ".";
    const { area } = store;
    const same = reply.figure === told.commits.length && homes.every((byte, i) => byte === area[i]) && unitsAgree(store, told);
    return "The proved program opens this image and brings back " + plural(reply.figure, "transaction") + ". Its homes, pumps, alarms and bands are "
      + (same ? "the same, byte for byte." : "NOT the same: please report this image.");
  }

  /* Filled when it is opened: it can be long. */
  printed(kind, text, name) {
    const place = el("pre", { tabindex: "0", "aria-label": "inspect, " + kind });
    const save = el("button", { type: "button", on: { click: () => saveFile(name, text) } }, "Save as " + name);
    return el("details", { class: "printed", "data-kind": kind, on: { toggle: () => {
      place.textContent = text.length > MOST_SHOWN ? text.slice(0, MOST_SHOWN) + "\n… the file has all of it\n" : text;
    } } }, el("summary", null, "inspect, " + kind), save, place);
  }
}
