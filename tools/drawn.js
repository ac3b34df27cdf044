// What .ci/viewer asks within the page.
const Drawn = (() => {
  const frame = () => new Promise((go) => requestAnimationFrame(() => requestAnimationFrame(go)));
  const texts = (row) => [...row.querySelectorAll("text")];

  // Whether texts of a row lie over each other, are higher than it, or leave the box in which they begin.
  function isUnclear(row) {
    const place = Number(row.dataset.place);
    const { trail, columns, rowHeight } = Page.at;
    const event = trail.entry(place);
    const { right } = Layout.sides(trail.history.nodes.get(event.name), columns, new Map());
    const sides = texts(row).map((text) => text.getBBox()).sort((a, b) => a.x - b.x);
    const isSpilt = ({ x, width }) => x < right && x + width > right + 1 && !(event.what === "end" && !event.committed);
    const isMet = (side, at) => at > 0 && side.x < sides[at - 1].x + sides[at - 1].width - 1;
    return sides.some((side, at) => isMet(side, at) || side.height > rowHeight + 2) || sides.some(isSpilt);
  }

  function look(row) {
    const signs = texts(row).map((text) => text.textContent[0]).filter((sign) => "✓✕".includes(sign));
    const [arrows, crosses] = ["line.arrow", "path.cross"].map((kind) => row.querySelectorAll(kind).length);
    return { arrows, crosses, signs: signs.join(""), isUnclear: isUnclear(row) };
  }

  // Counts what is drawn while the picture is scrolled from its top to its end.
  async function count() {
    const [field, picture] = [Page.find("field"), Page.find("picture")];
    const [rows, boxes] = [new Map(), new Set()];
    for (let top = 0; top <= field.scrollHeight; top += field.clientHeight / 2) {
      field.scrollTop = top;
      await frame();
      for (const row of picture.querySelectorAll(".row")) {
        if (!rows.has(row.dataset.place)) rows.set(row.dataset.place, look(row));
      }
      for (const box of picture.querySelectorAll(".box")) boxes.add(box.dataset.name);
    }
    const whatOf = (place) => Page.at.trail.entry(Number(place)).what;
    const all = [...rows].map(([place, row]) => ({ ...row, place: Number(place), what: whatOf(place) }));
    const many = (isOne) => all.filter(isOne).length;
    return {
      rows: all.length, boxes: boxes.size, arrows: all.reduce((sum, { arrows }) => sum + arrows, 0),
      lost: many(({ what, crosses }) => what === "request" && crosses),
      commits: many(({ what, signs }) => what === "end" && signs === "✓"),
      aborts: many(({ what, signs }) => what === "end" && signs === "✕"),
      unclear: all.filter((row) => row.isUnclear).map(({ place }) => place),
    };
  }

  const spell = (tuple) => JSON.stringify(tuple, (_, value) => (typeof value === "bigint" ? `${value}n` : value));

  // What copies hold and who holds locks by a history that has come so far, and by the state at its last entry.
  function compare(history) {
    const { trail } = Page.at;
    const place = history.length - 1;
    const [kept, told] = [[], []];
    history.cells.forEach((row, copy) => row.forEach((cell, record) => {
      kept.push(`${copy} ${record} ${spell(cell.tuple)}`);
      told.push(`${copy} ${record} ${spell(States.holdsAt(trail, copy, record, place))}`);
      for (const [holder, lock] of cell.alive) kept.push(`${copy} ${record} ${holder.name} ${Boolean(lock.write)}`);
    }));
    for (const { copy, record, holder, writes } of States.locksAt(trail, place)) {
      told.push(`${copy} ${record} ${holder.name} ${writes}`);
    }
    return kept.sort().join() === told.sort().join();
  }

  // Goes through all entries and boxes, and answers those at which the state is not what the rules went by.
  function states() {
    const { trail } = Page.at;
    const history = new Histories.History(trail.table, trail.base);
    const aside = document.createElement("aside");
    const wrong = [];
    for (let place = 0; place < trail.length; place++) {
      Panel.fill(aside, trail, place, null);
      history.take(trail.entry(place));
      if (!compare(history)) wrong.push(place);
    }
    for (const node of trail.history.inOrder) {
      Panel.fill(aside, trail, trail.length - 1, node);
      if (!Words.box(trail, node)) wrong.push(node.start);
    }
    return wrong;
  }

  // Each record's value at the end of the serial order, as the lines of a report.
  function finals() {
    const { table, order } = Page.at.trail;
    const values = order.valuesAfter(order.events.length);
    return values.map((value, record) => `final ${table.records[record].name} ${Values.spell(value)}\n`).join("");
  }

  const bytesOf = (text) => Uint8Array.from(atob(text), (sign) => sign.charCodeAt(0));

  // What the page would tell of a trail in place of an audit.
  function audit(text) {
    try {
      return Trails.read(bytesOf(text)).audit;
    } catch (fault) {
      if (!(fault instanceof Reading.Malformed)) throw fault;
      return "qc: trail: malformed\n";
    }
  }

  // How long each of some looks at far entries took, in seconds, the shortest first.
  async function looks(many) {
    const took = [];
    for (let step = 0; step < many; step++) {
      const began = performance.now();
      Page.choose(Math.floor((Page.at.trail.length * ((step * 17) % many)) / many), { isMiddle: true });
      await frame();
      took.push((performance.now() - began) / 1000);
    }
    return took.sort((a, b) => a - b);
  }

  // Drops a file on the page.
  function drop(text) {
    const given = new DataTransfer();
    given.items.add(new File([bytesOf(text)], "dropped"));
    dispatchEvent(new DragEvent("drop", { dataTransfer: given }));
  }

  return { count, states, finals, audit, looks, drop, frame };
})();
