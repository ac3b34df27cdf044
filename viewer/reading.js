// Reads the bytes of a saved trail, as docs/FORMATS.md tells them. Versions, generations and values that are numbers have
// 64 bits, so they are BigInts. A name is the text that a report has of it, as 1/3.1.2.
const Reading = (() => {
  const MOST_BYTES = 2 ** 28;
  const LONGEST_NAME = 18;
  const LONGEST_TEXT = 1024;
  const PHASES = ["collect", "values", "configs"];
  const REASONS = [null, "lost", "late", "down", "full", "strange"];

  // Bytes that are no saved trail: where, and what is wrong there.
  class Malformed extends Error {
    constructor(place, what, entry) {
      super(what);
      this.place = place;
      this.entry = entry;
    }
  }

  class Cursor {
    constructor(bytes, at = 0, end = bytes.length, format = 1) {
      this.bytes = bytes;
      this.view = new DataView(bytes.buffer, bytes.byteOffset, bytes.byteLength);
      this.at = at;
      this.end = end;
      this.format = format;
    }

    fail(what, place = this.at) {
      throw new Malformed(place, what);
    }

    // Steps over so many bytes, and tells where they begin.
    take(count, what) {
      if (this.end - this.at < count) this.fail(`the bytes end within ${what}`, this.end);
      this.at += count;
      return this.at - count;
    }

    byte(what) {
      return this.bytes[this.take(1, what)];
    }

    half(what) {
      return this.view.getUint16(this.take(2, what));
    }

    word(what) {
      return this.view.getUint32(this.take(4, what));
    }

    long(what) {
      return this.view.getBigUint64(this.take(8, what));
    }

    // A byte that tells one of so many cases.
    choice(count, what) {
      const found = this.byte(what);
      if (found >= count) this.fail(`${found} is no ${what}`, this.at - 1);
      return found;
    }

    number(what) {
      const found = this.word(what);
      if (found === 0) this.fail(`a number of ${what} is 0`, this.at - 4);
      return found;
    }

    name(what = "a name") {
      const count = this.byte(what);
      if (count === 0 || count > LONGEST_NAME) this.fail(`${what} has ${count} numbers`, this.at - 1);
      let name = `${this.number(what)}/${this.number(what)}`;
      for (let more = 1; more < count; more++) name += `.${this.number(what)}`;
      return name;
    }

    config(copies) {
      const from = this.at;
      const count = this.byte("a configuration");
      if (count !== copies) this.fail(`a configuration is for ${count} copies, not ${copies}`, from);
      const at = this.take(copies, "votes");
      const votes = Array.from(this.bytes.subarray(at, at + copies));
      const [read, write] = [this.half("a threshold"), this.half("a threshold")];
      const total = votes.reduce((sum, vote) => sum + vote, 0);
      const fits = (threshold) => threshold >= 1 && threshold <= total;
      if (!fits(read) || !fits(write) || read + write <= total) this.fail("a configuration is not legal", from);
      return { votes, read, write };
    }

    // A number, which has 00 before it from the second format on, or a text behind 01.
    value(what) {
      const tag = this.format > 1 ? this.byte(what) : 0;
      if (tag > 1) this.fail(`${tag} is no value`, this.at - 1);
      return tag === 1 ? this.text(what) : this.long(what);
    }

    text(what) {
      const count = this.half(what);
      if (count > LONGEST_TEXT) this.fail(`a text has ${count} bytes`, this.at - 2);
      const from = this.take(count, what);
      return String.fromCharCode(...this.bytes.subarray(from, from + count));
    }

    tuple(copies) {
      const [version, value, generation] = [this.long("a tuple"), this.value("a tuple"), this.long("a tuple")];
      return { version, value, generation, config: this.config(copies) };
    }
  }

  function readLabel(cursor) {
    const count = cursor.byte("a record's name");
    if (count === 0 || count > 16) cursor.fail(`a record's name has ${count} letters`, cursor.at - 1);
    const from = cursor.take(count, "a record's name");
    const label = String.fromCharCode(...cursor.bytes.subarray(from, from + count));
    if (!/^[A-Za-z0-9]+$/.test(label)) cursor.fail("a record's name has other than letters and digits", from);
    return label;
  }

  function readCount(cursor, most, what) {
    const count = cursor.byte(what);
    if (count === 0 || count > most) cursor.fail(`${count} is no number of ${what}`, cursor.at - 1);
    return count;
  }

  // The body that says how the ledger's disk is made: with how many copies, and which records.
  function readMade(cursor) {
    for (const [wanted, what] of [[[1], "made record"], [[1, 2], "format"], [[0], "ledger's disk"]]) {
      const found = cursor.byte(`a ${what}`);
      if (!wanted.includes(found)) cursor.fail(`${found} is no ${what}`, cursor.at - 1);
      if (what === "format") cursor.format = found;
    }
    const copies = readCount(cursor, 16, "copies");
    const records = [];
    for (let more = readCount(cursor, 64, "records"); more > 0; more--) {
      const from = cursor.at;
      const name = readLabel(cursor);
      if (records.some((record) => record.name === name)) cursor.fail(`a second record is named ${name}`, from);
      records.push({ name, start: cursor.value("a start"), config: cursor.config(copies) });
    }
    if (cursor.at !== cursor.end) cursor.fail("bytes stand behind the made record");
    return { copies, records };
  }

  // The tuples from which the run started, by copy and by record.
  function readBase(cursor, table) {
    const copies = readCount(cursor, 16, "copies");
    const records = readCount(cursor, 64, "records");
    const base = [];
    const from = cursor.at - 2;
    for (let copy = 0; copy < copies; copy++) {
      const row = [];
      for (let record = 0; record < records; record++) row.push(cursor.tuple(copies));
      base.push(row);
    }
    if (copies !== table.copies || records !== table.records.length) {
      cursor.fail("the base has other copies or records than the table", from);
    }
    return base;
  }

  // All before the entries. They are read one by one, from `at` on.
  function readHead(bytes) {
    if (bytes.length > MOST_BYTES) throw new Malformed(MOST_BYTES, "the page takes no more bytes than this");
    const cursor = new Cursor(bytes);
    const size = cursor.word("the first length");
    if (size > cursor.end - cursor.at) cursor.fail(`no ${size} bytes follow the first length`, 0);
    const made = new Cursor(bytes, cursor.at, cursor.at + size);
    const table = readMade(made);
    cursor.at = made.end;
    cursor.format = made.format;
    const base = readBase(cursor, table);
    const count = Number(cursor.long("the number of entries"));
    return { bytes, table, base, count, at: cursor.at, format: cursor.format };
  }

  function readKind(cursor, copies) {
    switch (cursor.choice(5, "kind")) {
      case 0:
        return { what: "user", session: cursor.byte("a session"), body: cursor.word("a body") };
      case 1:
        return { what: "read", record: cursor.byte("a record") };
      case 2:
        return { what: "write", record: cursor.byte("a record"), value: cursor.value("a value") };
      case 3:
        return { what: "reconf", record: cursor.byte("a record"), config: cursor.config(copies) };
      default:
        return { what: "access" };
    }
  }

  function readOperation(cursor, copies) {
    switch (cursor.choice(3, "operation")) {
      case 0:
        return { what: "get" };
      case 1:
        return { what: "data", version: cursor.long("a version"), value: cursor.value("a value") };
      default:
        return { what: "config", generation: cursor.long("a generation"), config: cursor.config(copies) };
    }
  }

  function operationOf(code, tuple) {
    if (code === 0) return { what: "get" };
    if (code === 1) return { what: "data", version: tuple.version, value: tuple.value };
    return { what: "config", generation: tuple.generation, config: tuple.config };
  }

  function readReason(cursor, least) {
    const from = cursor.at;
    const found = cursor.choice(6, "reason");
    if (found < least) cursor.fail(`${found} is no reason here`, from);
    return REASONS[found];
  }

  function readAnswer(cursor, copies) {
    switch (cursor.choice(4, "answer")) {
      case 0:
        return { what: "nothing" };
      case 1:
        return { what: "value", value: cursor.value("a value") };
      case 2:
        return { what: "generation", generation: cursor.long("a generation") };
      default:
        return { what: "reply", tuple: cursor.tuple(copies) };
    }
  }

  function readLack(cursor) {
    const phase = PHASES[cursor.choice(3, "phase")];
    const replied = cursor.half("the copies that replied");
    const missing = [];
    for (let copy = 0; copy < 16; copy++) missing.push(readReason(cursor, 0));
    return { what: "noquorum", phase, replied, missing };
  }

  function readCause(cursor) {
    switch (cursor.choice(8, "cause")) {
      case 0:
        return { what: "asked", by: cursor.name() };
      case 1:
        return { what: "conflict", copy: cursor.byte("a copy"), holder: cursor.name() };
      case 2:
        return readLack(cursor);
      case 3:
        return { what: "last" };
      case 4:
        return { what: "orphan", of: cursor.name() };
      case 5:
        return { what: "killed" };
      case 6:
        return { what: "child", child: cursor.name() };
      default:
        return { what: "missed" };
    }
  }

  function readGrant(cursor, copies) {
    const copy = cursor.byte("a copy");
    const [name, record] = [cursor.name(), cursor.byte("a record")];
    const code = cursor.choice(3, "operation");
    const tuple = cursor.tuple(copies);
    return { what: "grant", name, copy, record, operation: operationOf(code, tuple), tuple };
  }

  function readRefusal(cursor) {
    const [name, copy] = [cursor.name(), cursor.byte("a copy")];
    const why = ["blocked", "dead"][cursor.choice(2, "refusal")];
    return { what: "refusal", name, copy, why, of: cursor.name() };
  }

  function readEnd(cursor, copies) {
    const name = cursor.name();
    if (cursor.choice(2, "end") === 0) return { what: "end", name, committed: true, answer: readAnswer(cursor, copies) };
    return { what: "end", name, committed: false, cause: readCause(cursor) };
  }

  function readMark(cursor) {
    const name = cursor.name();
    return { what: "mark", name, session: cursor.choice(16, "session") };
  }

  const EVENTS = {
    1: (cursor, copies) => ({ what: "start", name: cursor.name(), kind: readKind(cursor, copies) }),
    2: (cursor, copies) => ({
      what: "request", name: cursor.name(), copy: cursor.byte("a copy"), record: cursor.byte("a record"),
      operation: readOperation(cursor, copies),
    }),
    3: (cursor) => ({ what: "gone", name: cursor.name(), why: readReason(cursor, 1) }),
    4: readGrant,
    5: readRefusal,
    6: (cursor) => ({ what: "ready", name: cursor.name() }),
    7: readEnd,
    8: (cursor) => ({ what: "unable", name: cursor.name(), why: readReason(cursor, 3) }),
    9: readMark,
  };

  // The entry at a cursor: the seat under which it was made, and the event.
  function readEntry(cursor, copies) {
    const seat = cursor.word("a seat");
    const tag = cursor.byte("an event");
    if (!(tag in EVENTS)) cursor.fail(`${tag} is no event`, cursor.at - 1);
    const event = EVENTS[tag](cursor, copies);
    event.seat = seat;
    return event;
  }

  return { Cursor, Malformed, readHead, readEntry };
})();
