/* Numbers by chance: the same for the same seed. */
class Chance {
  constructor(seed) {
    this.word = seed >>> 0;
  }

  /* A whole number from 0 to below the limit. */
  below(limit) {
    this.word = (this.word + 0x6d2b79f5) >>> 0;
    let t = this.word;
    t = Math.imul(t ^ (t >>> 15), t | 1);
    t ^= t + Math.imul(t ^ (t >>> 7), t | 61);
    return ((t ^ (t >>> 14)) >>> 0) % limit;
  }

  oneIn(limit) {
    return this.below(limit) === 0;
  }

  oneOf(list) {
    return list[this.below(list.length)];
  }
}
