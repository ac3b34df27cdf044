// Arrows between boxes and the columns of copies and the ledger.
const Arrows = (() => {
  // How far before its copy a lost request ends.
  const BREAK = 39;

  // How large points and dots are in rows of a height.
  const sizeOf = (picture) => Math.min(5, Math.max(1.5, picture.view.rowHeight * 0.36));
  const lifeOf = (column) => Math.round(column.left + Drawing.LINE_IN);
  const edgeOf = (picture, node) => Math.round(picture.sidesOf(node).right);

  // What is drawn at the height of an entry.
  class Row {
    constructor(picture, place) {
      Object.assign(this, { picture, place, y: picture.middle(place), size: sizeOf(picture) });
    }

    line(kind, from, to) {
      this.picture.add("line", { class: `arrow ${kind}`, x1: from, x2: to, y1: this.y, y2: this.y });
    }

    // The point of an arrow that comes to x from the left or from the right.
    point(kind, x, isFromLeft) {
      const back = isFromLeft ? x - this.size - 2 : x + this.size + 2;
      const d = `M${x} ${this.y}L${back} ${this.y - this.size}L${back} ${this.y + this.size}Z`;
      this.picture.add("path", { class: `point ${kind}`, d });
    }

    cross(x) {
      const [size, y] = [this.size * 0.85, this.y];
      const d = `M${x - size} ${y - size}L${x + size} ${y + size}M${x - size} ${y + size}L${x + size} ${y - size}`;
      this.picture.add("path", { class: "cross", d });
    }

    bar(x) {
      this.picture.add("line", { class: "cross", x1: x, x2: x, y1: this.y - this.size, y2: this.y + this.size });
    }

    circle(kind, x) {
      this.picture.add("circle", { class: kind, cx: x, cy: this.y, r: this.size * 0.8 });
    }

    square(kind, x) {
      const half = this.size * 0.8;
      this.picture.add("rect", { class: kind, x: x - half, y: this.y - half, width: 2 * half, height: 2 * half });
    }

    say(x, text, kind, anchor = "start") {
      if (this.picture.hasText) this.picture.text(x, this.place, text, { kind, anchor });
    }
  }

  // A request, as far as it came.
  function request(picture, event, access, row) {
    const [from, to] = [edgeOf(picture, access), lifeOf(picture.columns.copies.get(event.copy))];
    const fate = Words.fateOf(access);
    if (fate === "lost" || fate === "held") {
      row.line(fate, from, to - BREAK - 5);
      if (fate === "lost") row.cross(to - BREAK);
      else row.circle("ring", to - BREAK);
      row.say(to - BREAK + 8, fate, fate === "lost" ? "bad" : "late");
      return;
    }
    const kind = fate === "late" ? "held" : "asks";
    row.line(kind, from, to - 4);
    row.point(kind, to - 1, true);
  }

  // An answer that does not come back.
  function broken(fate, from, row) {
    const isLost = fate === "answer lost";
    row.line(isLost ? "lost" : "held", from - 5, from - 26);
    if (isLost) row.cross(from - 31);
    else row.circle("ring", from - 31);
    row.say(from - 40, fate === "late" ? "too late" : fate, isLost ? "bad" : "late", "end");
  }

  // An answer, as far as it came back.
  function answer(picture, event, access, row, kind) {
    const [from, to] = [lifeOf(picture.columns.copies.get(access.copy)), edgeOf(picture, access)];
    const fate = Words.fateOf(access);
    row.circle(`dot ${kind}`, from);
    if (["late", "answer lost", "answer late"].includes(fate)) {
      broken(fate, from, row);
    } else {
      row.line(kind, from - 4, to + 4);
      if (kind === "refuses") row.bar(to + 3);
      else row.point(kind, to + 1, false);
    }
    row.say(from + 9, Marks.atCopy(picture.trail, event), kind === "grants" ? "plain" : "bad");
  }

  function toLedger(picture, event, top, row) {
    const [from, to] = [edgeOf(picture, top), lifeOf(picture.columns.ledger)];
    row.line("logs", from, to - 4);
    row.point("logs", to - 1, true);
    row.say(to + 9, `is to log ${top.name}`, "plain");
  }

  function fromLedger(picture, event, top, row) {
    const [from, to] = [lifeOf(picture.columns.ledger), edgeOf(picture, top)];
    const isCommit = event.what === "end";
    const kind = isCommit ? "logs" : "refuses";
    row.line(kind, from - 4, to + 4);
    if (isCommit) row.point(kind, to + 1, false);
    else row.bar(to + 3);
    row.square(`dot ${kind}`, from);
    row.say(from + 9, isCommit ? `record of ${top.name}` : `unable: ${event.why}`, isCommit ? "plain" : "bad");
  }

  const DRAWN = {
    request,
    grant: (picture, event, node, row) => answer(picture, event, node, row, "grants"),
    refusal: (picture, event, node, row) => answer(picture, event, node, row, "refuses"),
    unable: (picture, event, node, row) => (node.isAccess ? answer : fromLedger)(picture, event, node, row, "refuses"),
    ready: toLedger,
    end: (picture, event, node, row) => {
      if (!node.parent && event.committed) fromLedger(picture, event, node, row);
    },
  };

  // The arrow of an entry, where it has one.
  const draw = (picture, event, node, place) => DRAWN[event.what]?.(picture, event, node, new Row(picture, place));

  return { draw };
})();
