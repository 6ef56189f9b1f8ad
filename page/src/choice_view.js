/* The choice at a cut: how many more fences have passed, and which of the blocks up to the next one land. */
const RECORDS = { GW: "group, slot ", HW: "home ", KW: "header" };

class ChoiceView {
  /* changed() is called when the choice has changed, done(choice or null) at its end. */
  constructor(changed, done) {
    this.changed = changed;
    this.done = done;
    this.open = false;
  }

  start(lasting, chance, byChance) {
    Object.assign(this, { open: true, lasting, byChance });
    this.set(byChance(chance));
    this.chance = chance;
    byId("choice").hidden = false;
    byId("cut-now").focus();
  }

  end(choice) {
    this.open = false;
    byId("choice").hidden = true;
    this.done(choice);
  }

  set({ fences, chosen }) {
    this.fences = fences;
    this.chosen = chosen;
    this.draw();
    this.changed();
  }

  blocks() {
    return this.lasting.stretch(this.fences);
  }

  all(lands) {
    this.set({ fences: this.fences, chosen: this.blocks().map(() => lands) });
  }

  again() {
    this.set(this.byChance(this.chance));
  }

  toggle(i) {
    this.chosen[i] = !this.chosen[i];
    this.draw();
    this.changed();
  }

  draw() {
    const select = byId("fences"), count = this.lasting.fences();
    fill(select, Array.from({ length: count + 1 }, (_, i) => el("option", { value: i }, i + " of " + count)));
    select.value = String(this.fences);
    const blocks = this.blocks(), focus = document.activeElement && document.activeElement.dataset.block;
    byId("choice-told").textContent = blocks.length
      ? "Chosen to land: " + this.chosen.filter(Boolean).length + " of " + plural(blocks.length, "block") + "."
      : "No block is on its way between these fences.";
    fill(byId("choice-blocks"), this.records(blocks).map(list => this.record(list)));
    if (focus !== undefined && focus !== null) byId("choice-blocks").querySelector('[data-block="' + focus + '"]')?.focus();
  }

  /* Blocks of one record together. */
  records(blocks) {
    const lists = [];
    blocks.forEach((block, i) => {
      if (block.part === 0 || i === 0) lists.push([]);
      lists[lists.length - 1].push({ block, i });
    });
    return lists;
  }

  record(list) {
    const { kind, place, call } = list[0].block;
    const name = kind + " " + RECORDS[kind] + (kind === "KW" ? "" : place);
    return el("fieldset", { class: "record" }, el("legend", null, name, el("small", null, " by " + call)), list.map(({ block, i }) => {
      const part = kind !== "GW" ? "lands" : block.part ? String(block.part) : "tags";
      return el("label", { class: "toggle" }, el("input", { type: "checkbox", checked: this.chosen[i], "data-block": i,
        "aria-label": name + (kind === "GW" ? ", " + (block.part ? "data block " + block.part : "number and tags") : "") + ": lands",
        on: { change: () => this.toggle(i) } }), el("span", null, part));
    }));
  }
}
