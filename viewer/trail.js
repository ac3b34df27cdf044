// A saved trail as the page has it: its entries, each read anew from the bytes, the history and the serial order that
// they make, and the verdict, which is that of an audit.
const Trails = (() => {
  const { History } = Histories;
  const LEAST_STRIDE = 256;

  class Trail {
    constructor(head) {
      Object.assign(this, head);
      this.offsets = new Float64Array(1024);
      this.told = 0;
      this.illegal = null;
      this.history = new History(head.table, head.base);
      this.order = new Serial.Order(this.history);
      this.cursor = new Reading.Cursor(head.bytes, head.at, head.bytes.length, head.format);
      this.open = new Set();
      this.checkpoints = [{ place: -1, open: [], started: 0 }];
    }

    // How many entries are legal, and so are drawn.
    get length() {
      return this.history.length;
    }

    entry(place) {
      return Reading.readEntry(new Reading.Cursor(this.bytes, this.offsets[place], this.bytes.length, this.format), this.table.copies);
    }

    // Reads so many entries more. Behind one that is not allowed the others are only read.
    readOn(many) {
      for (; many > 0 && this.told < this.count; many--) {
        const { at } = this.cursor;
        let event;
        try {
          event = Reading.readEntry(this.cursor, this.table.copies);
        } catch (fault) {
          fault.entry = this.told;
          throw fault;
        }
        if (!this.illegal) this.take(event, at);
        this.told++;
      }
      const isRead = this.told === this.count;
      if (isRead && this.cursor.at !== this.cursor.end) this.cursor.fail("bytes stand behind the last entry");
      return isRead;
    }

    take(event, at) {
      const place = this.told;
      const why = Rules.refuses(this.history, event);
      if (why) {
        this.illegal = { place, event, why };
        return;
      }
      if (place === this.offsets.length) {
        const longer = new Float64Array(2 * place);
        longer.set(this.offsets);
        this.offsets = longer;
      }
      this.offsets[place] = at;
      this.history.take(event);
      this.order.take(event, place);
      this.follow(event, place);
    }

    // Keeps which transactions are open, and notes them now and then, so that a look at some entries need not go over all.
    follow(event, place) {
      if (event.what === "start") this.open.add(this.history.nodes.get(event.name));
      if (event.what === "end") this.open.delete(this.history.nodes.get(event.name));
      const last = this.checkpoints[this.checkpoints.length - 1];
      if (place - last.place < Math.max(LEAST_STRIDE, this.open.size)) return;
      this.checkpoints.push({ place, open: [...this.open], started: this.history.inOrder.length });
    }

    // The transactions that stand at some of the entries from one to another, in the order of their starts.
    standing(from, to) {
      let [low, high] = [0, this.checkpoints.length];
      while (high - low > 1) {
        const middle = (low + high) >> 1;
        if (this.checkpoints[middle].place <= from) low = middle;
        else high = middle;
      }
      const found = this.checkpoints[low].open.filter((node) => node.end >= from);
      const { inOrder } = this.history;
      for (let next = this.checkpoints[low].started; next < inOrder.length && inOrder[next].start <= to; next++) {
        if (inOrder[next].end >= from) found.push(inOrder[next]);
      }
      return found;
    }

    // The events of the order that come from an entry: none, one, or an enter and its leave.
    eventsAt(place) {
      this.eventPlaces ||= this.placeEvents();
      const { first, last } = this.eventPlaces;
      if (first[place] < 0) return [];
      return last[place] === first[place] ? [first[place]] : [first[place], last[place]];
    }

    placeEvents() {
      const first = new Int32Array(this.length).fill(-1);
      const last = new Int32Array(this.length).fill(-1);
      this.order.events.forEach(({ entry }, at) => {
        if (first[entry] < 0) first[entry] = at;
        last[entry] = at;
      });
      return { first, last };
    }

    // The first lines that an audit writes, or its only one.
    get verdict() {
      if (this.illegal) return `illegal ${this.illegal.place}`;
      if (this.order.unfound !== null) return `unserial ${this.order.unfound}`;
      return `legal ${this.length}`;
    }

    // All lines that an audit writes.
    get audit() {
      if (this.illegal || this.order.unfound !== null) return `${this.verdict}\n`;
      const lines = this.order.events.map((event) => `${this.order.line(event)}\n`);
      return `${this.verdict}\n${lines.join("")}serial ${lines.length}\n`;
    }
  }

  const open = (bytes) => new Trail(Reading.readHead(bytes));

  // A whole trail at once.
  function read(bytes) {
    const trail = open(bytes);
    trail.readOn(Infinity);
    return trail;
  }

  return { open, read };
})();
