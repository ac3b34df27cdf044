// A history as it grows: its transactions as a tree, what became of each request, and the locks at each copy. Entries
// are told by their places, counted from 0; -1 is before the first, and NEVER behind the last.
const Histories = (() => {
  const NEVER = 2 ** 32;

  class Transaction {
    constructor(name, parent, kind, seat, place) {
      this.name = name;
      this.parent = parent;
      this.kind = kind;
      this.seat = seat;
      this.start = place;
      this.end = NEVER;
      this.committed = false;
      this.ready = NEVER;
      this.depth = parent ? parent.depth + 1 : 1;
      this.children = [];
      this.openChildren = 0;
      this.locks = null;
    }

    get isOpen() {
      return this.end === NEVER;
    }

    get isAborted() {
      return this.end !== NEVER && !this.committed;
    }

    get isUser() {
      return this.kind.what === "user";
    }

    get isAccess() {
      return this.kind.what === "access";
    }

    get isManager() {
      return !this.isUser && !this.isAccess;
    }

    get top() {
      let found = this;
      while (found.parent) found = found.parent;
      return found;
    }

    // The number of a top: its epoch in the upper half, its place in the lower.
    get number() {
      const [epoch, place] = this.name.split("/");
      return (BigInt(epoch) << 32n) + BigInt(place);
    }

    // Whether this is the other one or stands above it.
    isAbove(other) {
      while (other && other.depth > this.depth) other = other.parent;
      return other === this;
    }

    // The highest aborted one of this and those above it.
    get dead() {
      let found = null;
      for (let above = this; above; above = above.parent) if (above.isAborted) found = above;
      return found;
    }
  }

  const newPhase = () => ({ asked: 0, replied: 0, missing: [], blocked: null });

  // What a manager has learnt so far.
  class Gathering {
    constructor(first) {
      this.phases = {};
      this.waiting = null;
      this.newest = { generation: 0n, config: first };
      this.greatest = null;
    }

    phase(name) {
      return (this.phases[name] ||= newPhase());
    }

    reply({ version, value, generation, config }) {
      if (!this.greatest || this.greatest.version < version) this.greatest = { version, value };
      if (this.newest.generation < generation) this.newest = { generation, config };
    }
  }

  // An access before it asks.
  const NOT_ASKED = {
    asked: NEVER, askedUnder: 0, copy: -1, operation: null, gone: NEVER, why: null,
    granted: NEVER, tuple: null, refused: NEVER, refusal: null, unable: null, unableAt: NEVER,
  };

  const phaseOf = (operation) => ({ get: "collect", data: "values", config: "configs" })[operation.what];

  // What a copy holds of a record: what stays for good, and the grants of each holder that is not committed. A later
  // grant, by its place, sets the fields that it sets over an earlier one.
  class Cell {
    constructor(tuple) {
      this.data = { at: -1, version: tuple.version, value: tuple.value };
      this.config = { at: -1, generation: tuple.generation, config: tuple.config };
      this.locks = new Map();
    }

    // The locks of holders that are not dead. Those of dead ones are dropped.
    get alive() {
      for (const holder of this.locks.keys()) if (holder.dead) this.locks.delete(holder);
      return this.locks;
    }

    get tuple() {
      let { data, config } = this;
      for (const lock of this.alive.values()) {
        if (lock.data && lock.data.at > data.at) data = lock.data;
        if (lock.config && lock.config.at > config.at) config = lock.config;
      }
      return { version: data.version, value: data.value, generation: config.generation, config: config.config };
    }

    // The access of the first grant that stands in an operation's way.
    inWay(operation, access) {
      let first = null;
      for (const [holder, lock] of this.alive) {
        if (holder.isAbove(access)) continue;
        for (const given of operation.what === "get" ? [lock.write] : [lock.read, lock.write]) {
          if (given && (!first || given.granted < first.granted)) first = given;
        }
      }
      return first;
    }

    grant(access, place, operation, tuple) {
      const lock = { read: null, write: null, data: null, config: null };
      if (operation.what === "get") lock.read = access;
      else lock.write = access;
      if (operation.what === "data") lock.data = { at: place, version: tuple.version, value: tuple.value };
      if (operation.what === "config") lock.config = { at: place, generation: tuple.generation, config: tuple.config };
      this.give(access, lock);
    }

    // Gives a lock to a holder, beside what it has.
    give(holder, lock) {
      const own = this.locks.get(holder);
      if (!own) {
        this.locks.set(holder, lock);
        (holder.locks ||= new Set()).add(this);
        return;
      }
      const earlier = (a, b) => (!a || (b && b.granted < a.granted) ? b : a);
      const later = (a, b) => (!a || (b && b.at > a.at) ? b : a);
      own.read = earlier(own.read, lock.read);
      own.write = earlier(own.write, lock.write);
      own.data = later(own.data, lock.data);
      own.config = later(own.config, lock.config);
    }

    // A holder commits: its locks go to its parent, and those of a top stay for good.
    passOn(holder) {
      const lock = this.locks.get(holder);
      this.locks.delete(holder);
      if (!lock) return;
      if (holder.parent) return this.give(holder.parent, lock);
      if (lock.data && lock.data.at > this.data.at) this.data = lock.data;
      if (lock.config && lock.config.at > this.config.at) this.config = lock.config;
    }
  }

  const causeKey = (cause) => JSON.stringify(cause);

  // How each event changes the history, behind the rules.
  const CHANGES = {
    start(history, event, place) {
      const parent = history.parentOf(event.name);
      const node = new Transaction(event.name, parent, event.kind, event.seat, place);
      history.nodes.set(event.name, node);
      history.inOrder.push(node);
      (parent ? parent.children : history.tops).push(node);
      if (parent) parent.openChildren++;
      if (node.isManager) node.gathering = new Gathering(history.table.records[node.kind.record].config);
      if (node.isAccess) Object.assign(node, NOT_ASKED);
    },

    request(history, event, place) {
      const access = history.nodes.get(event.name);
      Object.assign(access, { asked: place, askedUnder: event.seat, copy: event.copy, operation: event.operation });
      const { gathering } = access.parent;
      gathering.waiting = access;
      gathering.phase(phaseOf(event.operation)).asked |= 1 << event.copy;
    },

    gone(history, event, place) {
      const access = history.nodes.get(event.name);
      access.gone = place;
      access.why = event.why;
    },

    grant(history, event, place) {
      const access = history.nodes.get(event.name);
      access.granted = place;
      access.tuple = event.tuple;
      if (event.operation.what !== "get") history.puts[event.copy][event.record].push(access);
      if (!access.dead) history.cells[event.copy][event.record].grant(access, place, event.operation, event.tuple);
    },

    refusal(history, event, place) {
      const access = history.nodes.get(event.name);
      if (access.refused !== NEVER) return;
      access.refused = place;
      access.refusal = { why: event.why, of: history.nodes.get(event.of) };
    },

    ready(history, event, place) {
      history.nodes.get(event.name).ready = place;
    },

    unable(history, event, place) {
      const node = history.nodes.get(event.name);
      (node.unable ||= new Set()).add(event.why);
      node.unableAt = Math.min(node.unableAt ?? NEVER, place);
    },

    mark(history, event) {
      const number = history.nodes.get(event.name).top.number;
      const before = history.marks.get(event.session) ?? 0n;
      history.marks.set(event.session, number > before ? number : before);
    },

    end(history, event, place) {
      const node = history.nodes.get(event.name);
      node.end = place;
      node.committed = event.committed;
      if (node.parent) node.parent.openChildren--;
      if (node.isAccess) learn(node, event);
      if (node.isManager && !event.committed) (node.parent.causes ||= new Set()).add(causeKey(event.cause));
      if (event.committed && node.locks) for (const cell of node.locks) cell.passOn(node);
      node.locks = null;
      // What a manager gathered is told of those that failed.
      if (node.isManager && event.committed) node.gathering = null;
    },
  };

  // What a manager learns from the end of an access.
  function learn(access, event) {
    const { gathering } = access.parent;
    if (access.asked === NEVER || !access.parent.isOpen) return;
    if (gathering.waiting === access) gathering.waiting = null;
    const phase = gathering.phase(phaseOf(access.operation));
    if (event.committed) {
      phase.replied |= 1 << access.copy;
      if (access.operation.what === "get") gathering.reply(event.answer.tuple);
    } else if (access.gone !== NEVER) {
      phase.missing[access.copy] = access.why;
    } else if (access.refusal?.why === "blocked") {
      phase.blocked ||= access;
    }
  }

  class History {
    constructor(table, base) {
      Object.assign(this, { table, base, length: 0, tops: [], nodes: new Map(), inOrder: [], marks: new Map() });
      this.cells = base.map((row) => row.map((tuple) => new Cell(tuple)));
      this.puts = base.map((row) => row.map(() => []));
    }

    parentOf(name) {
      const dot = name.lastIndexOf(".");
      return dot < 0 ? null : this.nodes.get(name.slice(0, dot)) ?? null;
    }

    // Takes an event that the rules allow.
    take(event) {
      CHANGES[event.what](this, event, this.length);
      this.length++;
    }
  }

  return { NEVER, History, causeKey };
})();
