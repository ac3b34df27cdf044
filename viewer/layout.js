// Where columns and boxes stand. A box has its place across as two fractions of the inside of the box around it.
const Layout = (() => {
  const PAD = 7;
  const LEAST_BOX = 178;
  const GAP = 26;
  const COPY = { most: 150, least: 90 };
  const LEDGER = 136;
  const ORDER = 220;

  const MOST_LANES = 48;
  // Boxes side by side have less than they want, so that the few of a session do not widen all of it.
  const BESIDE = 0.62;
  // Boxes without text may be narrower.
  const CLOSE = 8;

  // Where a box may stand beside others: behind one that has ended, or in a new place. Where these are too many, boxes lie
  // over each other.
  function laneFor(node, ends) {
    const free = ends.findIndex((end) => end < node.start);
    if (free >= 0) return free;
    return ends.length < MOST_LANES ? ends.length : node.start % MOST_LANES;
  }

  // Puts boxes that stand at the same time side by side, and answers the width that they want.
  function lay(nodes) {
    let widest = 0;
    let group = [];
    let ends = [];
    const close = () => {
      const widths = ends.map(() => 0);
      for (const node of group) widths[node.lane] = Math.max(widths[node.lane], node.width);
      const total = widths.reduce((sum, width) => sum + width, 0);
      for (const node of group) {
        const before = widths.slice(0, node.lane).reduce((sum, width) => sum + width, 0);
        node.left = before / total;
        node.right = (before + widths[node.lane]) / total;
      }
      widest = Math.max(widest, ends.length > 1 ? Math.max(...widths, total * BESIDE) : total);
      [group, ends] = [[], []];
    };
    for (const node of nodes) {
      node.width = Math.max(LEAST_BOX, node.children.length ? lay(node.children) + 2 * PAD : 0);
      if (group.length && ends.every((end) => end < node.start)) close();
      node.lane = laneFor(node, ends);
      ends[node.lane] = Math.max(node.end, ends[node.lane] ?? 0);
      group.push(node);
    }
    if (group.length) close();
    return widest;
  }

  // The sessions of a trail, each with its tops.
  function sessionsOf(trail) {
    const sessions = new Map();
    for (const top of trail.history.tops) {
      const { session } = top.kind;
      if (!sessions.has(session)) sessions.set(session, []);
      sessions.get(session).push(top);
    }
    return [...sessions.keys()].sort((a, b) => a - b).map((session) => ({ session, width: lay(sessions.get(session)) }));
  }

  // The columns for a picture of so many pixels across, in which text is so high. Sessions have what the others leave,
  // and where that is little the serial order stands behind the right edge.
  function columns(trail, sessions, wide, size) {
    const { copies } = trail.table;
    const gutter = 26 + Math.ceil(size * 0.65) * String(trail.length).length;
    const natural = sessions.reduce((sum, { width }) => sum + width, 0) || 1;
    const least = gutter + GAP * (sessions.length + 1) + LEDGER + copies * COPY.least;
    const unit = size / 10.5;
    const closest = size > CLOSE ? 0.6 * unit : 0.3;
    const isWide = wide - least - ORDER >= natural * unit;
    const room = wide - least - (isWide ? ORDER : 0);
    const scale = Math.min(1.7 * unit, Math.max(closest, room / natural));
    const copyWidth = Math.min(COPY.most, COPY.least + Math.max(0, room - natural * scale) / copies);
    let at = gutter;
    const all = [];
    const add = (what, number, title, width, gap) => {
      all.push({ what, number, title, left: at, right: at + width });
      at += width + gap;
    };
    for (const { session, width } of sessions) add("session", session, `session ${session}`, Math.round(width * scale), GAP);
    at += GAP;
    for (let copy = 0; copy < copies; copy++) add("copy", copy, `copy ${copy}`, copyWidth, 0);
    add("ledger", 0, "ledger", LEDGER, 0);
    add("order", 0, "serial order", ORDER, 0);
    const of = (what) => new Map(all.filter((column) => column.what === what).map((column) => [column.number, column]));
    const [ledger, order] = [of("ledger").get(0), of("order").get(0)];
    return { all, gutter, sessions: of("session"), copies: of("copy"), ledger, order, width: at };
  }

  // The sides of a box, kept for one drawing in a map.
  function sides(node, columns, known) {
    const before = known.get(node);
    if (before) return before;
    let inner;
    if (node.parent) {
      const around = sides(node.parent, columns, known);
      inner = { left: around.left + PAD, right: around.right - PAD };
    } else {
      inner = columns.sessions.get(node.kind.session);
    }
    const wide = inner.right - inner.left;
    const [left, right] = [inner.left + node.left * wide, inner.left + node.right * wide];
    const found = { left: left + (node.left > 0 ? 2 : 0), right: right - (node.right < 1 ? 2 : 0) };
    known.set(node, found);
    return found;
  }

  return { sessionsOf, columns, sides };
})();
