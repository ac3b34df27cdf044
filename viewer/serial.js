// The serial order of a history: what the root's children did, in the order in which they ended. An event is told with
// the entry that it comes from, and with the entry at which it takes its place in the order.
const Serial = (() => {
  // The values of the greatest versions of the base, of equal ones the least copy's.
  function startValues(base) {
    return base[0].map((_, record) => {
      const tuples = base.map((row) => row[record]);
      return tuples.reduce((best, tuple) => (tuple.version > best.version ? tuple : best)).value;
    });
  }

  class Order {
    constructor(history) {
      this.history = history;
      this.events = [];
      this.placed = [];
      this.starts = startValues(history.base);
      this.values = [...this.starts];
      this.writes = this.starts.map(() => []);
      this.unfound = null;
    }

    // Adds events to what the children of a transaction did, the root being null.
    add(parent, events, place) {
      if (parent) {
        parent.walk ||= [];
        for (const event of events) parent.walk.push(event);
        return;
      }
      for (const event of events) this.put(event, place);
    }

    // Puts an event into the order, and tries whether a read finds its value.
    put(event, place) {
      const { record } = event.node.kind;
      if (event.what === "read" && this.values[record] !== event.value) this.unfound ??= this.events.length;
      if (event.what === "write") {
        this.values[record] = event.value;
        this.writes[record].push({ at: this.events.length, value: event.value });
      }
      this.events.push(event);
      this.placed.push(place);
    }

    // Takes an event of the history, once that has taken it.
    take(event, place) {
      if (event.what !== "start" && event.what !== "end") return;
      const node = this.history.nodes.get(event.name);
      const make = (what, value) => ({ what, node, value, entry: place });
      if (event.what === "start") {
        if (node.isUser) this.add(node.parent, [make("start")], place);
        return;
      }
      if (node.isUser) {
        const inner = node.walk ?? [];
        node.walk = null;
        this.add(node.parent, event.committed ? [make("enter"), ...inner, make("leave")] : [make("skip")], place);
      } else if (event.committed && node.kind.what === "read") {
        this.add(node.parent, [make("read", event.answer.value)], place);
      } else if (event.committed && node.kind.what === "write") {
        this.add(node.parent, [make("write", node.kind.value)], place);
      }
    }

    // How many events stand in the order behind an entry.
    lengthAt(place) {
      let [low, high] = [0, this.placed.length];
      while (low < high) {
        const middle = (low + high) >> 1;
        if (this.placed[middle] <= place) low = middle + 1;
        else high = middle;
      }
      return low;
    }

    // Each record's value behind so many events.
    valuesAfter(length) {
      return this.writes.map((writes, record) => {
        let [low, high] = [0, writes.length];
        while (low < high) {
          const middle = (low + high) >> 1;
          if (writes[middle].at < length) low = middle + 1;
          else high = middle;
        }
        return low > 0 ? writes[low - 1].value : this.starts[record];
      });
    }

    // An event as a line of an audit.
    line(event) {
      const { what, node, value } = event;
      if (value === undefined) return `${what} ${node.name}`;
      return `${what} ${node.name} ${this.history.table.records[node.kind.record].name} ${Values.spell(value)}`;
    }
  }

  return { Order };
})();
