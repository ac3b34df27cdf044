// Draws the entries that are seen as the text of an SVG picture. A row is an entry, so nothing in it meets another.
const Drawing = (() => {
  const { element, escape, fit, wide } = Shapes;
  const HEAD = 44;
  // How far a line stands within the column of a copy.
  const LINE_IN = 14;
  // The lowest rows that have text, and that have boxes for accesses.
  const LEAST_TEXT = 11;
  const LEAST_ACCESS = 5;
  const MOST_BOXES = 2000;
  const NAME = 10;

  // How high text is in rows of a height.
  const sizeOf = (rowHeight) => Math.max(8, Math.min(12.5, rowHeight * 0.72));

  const levelOf = (node) => (node.isAccess ? "access" : node.isManager ? "manager" : node.parent ? "child" : "top");
  const toneOf = (event) => ({ gone: "bad", end: event.committed ? "good" : "bad" })[event.what] ?? "plain";

  class Picture {
    constructor(trail, columns, view) {
      Object.assign(this, { trail, columns, view, parts: [], sides: new Map() });
      this.size = sizeOf(view.rowHeight);
      this.hasText = view.rowHeight >= LEAST_TEXT;
    }

    y(place) {
      return this.view.top + (place - this.view.first) * this.view.rowHeight;
    }

    middle(place) {
      return this.y(place) + this.view.rowHeight / 2;
    }

    sidesOf(node) {
      return Layout.sides(node, this.columns, this.sides);
    }

    add(kind, attributes, inside) {
      this.parts.push(element(kind, attributes, inside));
    }

    // A text in the row of an entry.
    text(x, place, text, { kind = "", room = Infinity, anchor = "start" } = {}) {
      const kept = fit(text, room, this.size);
      const y = this.middle(place) + this.size * 0.35;
      if (kept) this.add("text", { class: kind, x, y, "text-anchor": anchor, "font-size": this.size }, escape(kept));
    }

    // A band over the whole row of an entry.
    band(kind, place) {
      this.add("rect", { class: kind, x: 0, y: this.y(place), width: this.columns.width, height: this.view.rowHeight });
    }

    lines() {
      const { view, columns } = this;
      const [y1, y2] = [this.y(view.first), this.y(view.last + 1)];
      for (const column of [...columns.copies.values(), columns.ledger]) {
        const x = column.left + LINE_IN;
        this.add("line", { class: "life", x1: x, x2: x, y1, y2 });
      }
      if (view.chosen >= view.first && view.chosen <= view.last) this.band("chosen", view.chosen);
      for (const place of view.hits) this.band("hit", place);
    }

    // BOXES AND LOCKS

    box(node) {
      const { view, trail } = this;
      const { left, right } = this.sidesOf(node);
      const isEnded = node.end < trail.length;
      const from = Math.max(this.y(node.start) + 1, this.y(view.first) - 6);
      const to = Math.min(this.y(isEnded ? node.end + 1 : trail.length) - 1, this.y(view.last + 1) + 6);
      const state = !isEnded ? "open" : node.committed ? "committed" : "aborted";
      const picked = view.picked === node ? " picked" : "";
      const sides = { x: left, y: from, width: right - left, height: Math.max(1, to - from), rx: 3 };
      this.add("rect", { class: `box ${state} ${levelOf(node)}${picked}`, ...sides, "data-name": node.name });
      if (state === "aborted" && !node.isAccess) this.add("rect", { class: "hatch", ...sides, fill: "url(#hatch)" });
    }

    // Where rows are too low for text, the names of tops that have room.
    names(tops) {
      for (const top of tops) {
        const from = Math.max(this.y(top.start), HEAD);
        const to = this.y(Math.min(top.end + 1, this.view.last + 1));
        const spot = { class: "name over", x: this.sidesOf(top).left + 5, y: from + NAME + 1, "font-size": NAME };
        if (to - from > NAME + 3) this.add("text", spot, top.name);
      }
    }

    // Beside the line of each copy bars tell how long locks are held there, those of each record in a place of their own.
    locks() {
      const { view, trail, columns } = this;
      const places = new Map();
      for (const span of States.lockSpans(trail, view.first, view.last)) {
        const records = places.get(span.copy) ?? places.set(span.copy, []).get(span.copy);
        if (!records.includes(span.record)) records.push(span.record);
        const x = columns.copies.get(span.copy).left + LINE_IN - 3 - 7 * Math.min(2, records.indexOf(span.record));
        const y = this.middle(Math.max(span.from, view.first - 1));
        const height = Math.max(1, this.middle(Math.min(span.to, view.last + 1)) - y);
        const kind = span.writes ? "write" : "read";
        const what = `${span.top.name} on ${Words.recordName(trail, span.record)} at copy ${span.copy}`;
        const words = `The ${kind} lock of ${what}, from entry ${span.from}.`;
        this.add("rect", { class: `lock ${kind}s`, x, y, width: 6, height, rx: 2, "data-words": words });
      }
    }

    // ROWS

    row(place) {
      const event = this.trail.entry(place);
      const node = this.trail.history.nodes.get(event.name);
      this.parts.push(`<g class="row" data-place="${place}">`);
      if (this.hasText) {
        this.inBox(event, node, place);
        this.serial(place);
      }
      Arrows.draw(this, event, node, place);
      this.parts.push("</g>");
    }

    inBox(event, node, place) {
      const { left, right } = this.sidesOf(node);
      let [x, room] = [left + 5, right - left - 10];
      if (event.what === "start") {
        const name = fit(node.name, room, this.size);
        this.text(x, place, name, { kind: "name" });
        // A name is bold, and so a little wider.
        const used = wide(name, this.size) * 1.08 + 8;
        [x, room] = [x + used, room - used];
        if (node.isUser) room -= this.outcome(node, place, right, room);
      }
      // Nothing else stands in the row of an abort, so its cause may go on behind its box.
      if (event.what === "end" && !event.committed) room = this.columns.ledger.left - x;
      this.text(x, place, Marks.inBox(this.trail, node, event), { kind: toneOf(event), room });
    }

    // How it ended, at the right of a box's head. Answers the room that it took.
    outcome(node, place, right, room) {
      const text = Marks.outcome(node, this.trail.length);
      const took = wide(text, this.size) + 10;
      if (took > room) return 0;
      const kind = node.committed ? "good" : node.isAborted ? "bad" : "open";
      this.text(right - 5, place, text, { kind, anchor: "end" });
      return took;
    }

    serial(place) {
      const { order } = this.trail;
      const { left, right } = this.columns.order;
      const lines = this.trail.eventsAt(place).map((at) => `${at} ${order.line(order.events[at])}`);
      this.text(left, place, lines.join("   "), { kind: "serial", room: right - left });
    }

    // THE SIDE AND THE HEAD

    // The numbers of the entries stay at the left edge.
    side() {
      const { view, columns } = this;
      const sides = { x: view.across, y: 0, width: columns.gutter - 8, height: this.y(view.last + 1) };
      if (view.across > 0) this.add("rect", { class: "side", ...sides });
      if (!this.hasText) return;
      const x = view.across + columns.gutter - 12;
      for (let place = view.first; place <= view.last; place++) {
        this.text(x, place, String(place), { kind: "number", anchor: "end" });
      }
    }

    // Of each session the lowest box that begins above what is seen, and so has no head in it.
    path(nodes) {
      const { first } = this.view;
      const above = nodes.filter((node) => node.start < first && node.end >= first);
      return new Map(above.map((node) => [node.top.kind.session, `in ${node.name}`]));
    }

    head(nodes) {
      const { columns, view } = this;
      const width = Math.max(columns.width, view.wide + view.across);
      const path = this.path(nodes);
      this.add("rect", { class: "head", x: 0, y: 0, width, height: HEAD });
      for (const column of columns.all) {
        const x = column.left + 3;
        this.add("text", { class: "title", x, y: 18, "font-size": 13 }, column.title);
        const under = { session: path.get(column.number), order: "in the order of ends" }[column.what] ?? "";
        const kept = fit(under, column.right - column.left, 11);
        if (kept) this.add("text", { class: "number", x, y: 34, "font-size": 11 }, kept);
      }
      this.add("line", { class: "edge", x1: 0, x2: width, y1: HEAD, y2: HEAD });
    }
  }

  // The picture of the rows that are seen, from the first to the last.
  function picture(trail, columns, view) {
    const drawn = new Picture(trail, columns, view);
    const nodes = trail.standing(view.first, view.last);
    const isSmall = (node) => node.isAccess && view.rowHeight < LEAST_ACCESS;
    drawn.lines();
    nodes.forEach((node, at) => {
      if (!isSmall(node) && (at < MOST_BOXES || node.start >= view.first)) drawn.box(node);
    });
    if (!drawn.hasText) drawn.names(nodes.filter((node) => !node.parent).slice(0, MOST_BOXES));
    drawn.locks();
    for (let place = view.first; place <= view.last; place++) drawn.row(place);
    drawn.side();
    drawn.head(nodes);
    return drawn.parts.join("");
  }

  return { HEAD, LINE_IN, picture, sizeOf };
})();
