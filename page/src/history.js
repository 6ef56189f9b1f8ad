/* The recorded history: what was to be seen after each move. */
const MOST_MOMENTS = 1500;

/* The commits since the last cut, and what is known of each. */
function commitsOf(station) {
  const { book } = station;
  const short = (commit, fate) => {
    const homes = [...new Set(commit.entries.map(entry => entry.home))];
    return { number: commit.number, writer: commit.writer, homes, fate };
  };
  const now = commit => commit.owed ? "owed" : commit.entries.every(entry => book.hasLanded(entry)) ? "landed" : "going";
  if (station.phase !== "on" || station.opening) {
    const { back = [], gone = [] } = station.result || {};
    return [...back.map(commit => short(commit, "back")), ...gone.map(commit => short(commit, "gone"))];
  }
  return book.commits.map(commit => short(commit, now(commit)));
}

function momentOf(session) {
  const { station } = session;
  return {
    said: station.said,
    image: station.lasting.bytes.slice(),
    waiting: station.lasting.waiting.map(stretch => stretch.slice()),
    writers: station.book.writers.map(({ open, entries, held }) => ({ open, logged: entries.length, held: held ? held.home : -1 })),
    byBook: station.phase === "on" && !station.opening ? station.book.newest.slice() : station.book.kept.slice(),
    usage: station.phase === "off" ? null : station.kagutin.ask("usage", [], 5).figures,
    commits: commitsOf(station),
    phase: station.phase,
    opening: station.opening,
    result: station.opening || station.phase !== "on" ? station.result : null,
    counts: { ...station.counts },
    moves: session.moves.length,
  };
}

class History {
  constructor() {
    this.moments = [];
    this.dropped = 0;
  }

  clear() {
    this.moments = [];
    this.dropped = 0;
  }

  add(session) {
    this.moments.push(momentOf(session));
    if (this.moments.length > MOST_MOMENTS) {
      this.moments.shift();
      this.dropped += 1;
    }
  }

  last() {
    return this.moments.length - 1;
  }
}
