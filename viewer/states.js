// How things stood behind an entry, which is told by its place; -1 is before the first.
const States = (() => {
  const isDeadAt = (node, place) => {
    for (let above = node; above; above = above.parent) if (above.end <= place && !above.committed) return true;
    return false;
  };

  const isOpenAt = (node, place) => node.start <= place && node.end > place;

  // The latest put of a copy and record that counts, among those that are of this kind.
  function lastPut(puts, what, place) {
    let [low, high] = [0, puts.length];
    while (low < high) {
      const middle = (low + high) >> 1;
      if (puts[middle].granted <= place) low = middle + 1;
      else high = middle;
    }
    for (let at = low - 1; at >= 0; at--) {
      if (puts[at].operation.what === what && !isDeadAt(puts[at], place)) return puts[at].operation;
    }
    return null;
  }

  // What a copy holds of a record: the start tuple, changed by each grant there whose access is not dead.
  function holdsAt(trail, copy, record, place) {
    const start = trail.base[copy][record];
    const puts = trail.history.puts[copy][record];
    const { version, value } = lastPut(puts, "data", place) ?? start;
    const { generation, config } = lastPut(puts, "config", place) ?? start;
    return { version, value, generation, config };
  }

  // The user transactions that are open, each behind those above it.
  function openAt(trail, place) {
    return trail.standing(place, place).filter((node) => node.isUser && isOpenAt(node, place));
  }

  // Who holds which lock: of each grant, the lowest above its access that is not committed, or the access itself.
  function locksAt(trail, place) {
    const locks = new Map();
    const add = (access, holder) => {
      const record = access.parent.kind.record;
      const key = `${access.copy} ${record} ${holder.name}`;
      const lock = locks.get(key) ?? { copy: access.copy, record, holder, writes: false, first: access };
      lock.writes ||= access.operation.what !== "get";
      if (access.granted < lock.first.granted) lock.first = access;
      locks.set(key, lock);
    };
    const visit = (node, above) => {
      if (node.start > place || (node.end <= place && !node.committed)) return;
      const holder = node.end > place ? node : above;
      if (node.isAccess && node.granted <= place && holder) add(node, holder);
      for (const child of node.children) visit(child, holder);
    };
    for (const node of openAt(trail, place)) if (!node.parent) visit(node, null);
    return [...locks.values()].sort((a, b) => a.record - b.record || a.copy - b.copy || a.first.granted - b.first.granted);
  }

  // At which entry the lock of a grant goes: at the end of its top, or at the first abort above its access.
  function lockEnd(access) {
    let end = access.top.end;
    for (let above = access; above; above = above.parent) if (above.isAborted) end = Math.min(end, above.end);
    return end;
  }

  // How long locks are held that stand at some of the entries from one to another: by copy, record and top, reads first.
  function lockSpans(trail, from, to) {
    const spans = [];
    const last = new Map();
    const visit = (node, top) => {
      if (node.start > to) return;
      if (node.isAccess && node.granted <= to) add(node, top);
      for (const child of node.children) visit(child, top);
    };
    const add = (access, top) => {
      const { copy, granted, operation } = access;
      const [record, writes] = [access.parent.kind.record, operation.what !== "get"];
      const span = { copy, record, top, writes, from: granted, to: lockEnd(access) };
      if (span.to < from || span.to <= span.from) return;
      const key = `${copy} ${record} ${top.name} ${writes}`;
      const before = last.get(key);
      if (before && span.from <= before.to) {
        before.to = Math.max(before.to, span.to);
      } else {
        last.set(key, span);
        spans.push(span);
      }
    };
    for (const node of trail.standing(from, to)) if (!node.parent) visit(node, node);
    return spans.sort((a, b) => a.record - b.record || a.writes - b.writes);
  }

  // The reads of a transaction that have committed, the latest last.
  function readsAt(node, place) {
    return node.children.filter((child) => child.kind.what === "read" && child.committed && child.end <= place);
  }

  return { holdsAt, openAt, locksAt, lockSpans, readsAt };
})();
