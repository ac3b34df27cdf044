// The short texts in the picture: what stands in a box at an entry, and beside a copy.
const Marks = (() => {
  const { NEVER } = Histories;
  const { short } = Values;

  const shortCause = (cause) => {
    switch (cause.what) {
      case "asked":
        return `asked by ${cause.by}`;
      case "conflict":
        return `conflict at copy ${cause.copy}`;
      case "noquorum":
        return "no quorum";
      case "last":
        return "last number";
      case "orphan":
        return `orphan of ${cause.of}`;
      case "killed":
        return "killed";
      case "child":
        return `child ${cause.child}`;
      default:
        return "no answer";
    }
  };

  // A manager's own cause tells who is missing, and who is in the way.
  function managerCause(cause) {
    if (cause.what === "conflict") return `conflict: copy ${cause.copy} locked by ${cause.holder}`;
    if (cause.what !== "noquorum") return shortCause(cause);
    const replied = Words.marked(cause.replied);
    const missing = cause.missing.flatMap((why, copy) => (why ? [`copy ${copy} ${why}`] : []));
    const who = replied.length ? `only ${replied.join(", ")} replied` : "none replied";
    return `no quorum: ${missing.join(", ")}; ${who}`;
  }

  function startMark(trail, event) {
    const record = Words.recordName(trail, event.kind.record);
    switch (event.kind.what) {
      case "user":
        return `body ${event.kind.body}`;
      case "read":
        return `read ${record}`;
      case "write":
        return `write ${record} = ${short(event.kind.value)}`;
      case "reconf":
        return `new votes for ${record}`;
      default:
        return "";
    }
  }

  function operationMark(trail, record, operation) {
    const name = Words.recordName(trail, record);
    if (operation.what === "get") return name;
    if (operation.what === "data") return `${name} = ${short(operation.value)}, v${operation.version}`;
    const { votes, read, write } = operation.config;
    return `${name}: ${votes.join(",")} r${read} w${write}, g${operation.generation}`;
  }

  function commitMark(trail, node, answer) {
    if (node.isUser) return node.parent ? "commits" : "committed";
    const record = Words.recordName(trail, (node.isAccess ? node.parent : node).kind.record);
    if (answer.what === "value") return `${record} is ${short(answer.value)}`;
    if (answer.what === "generation") return `${record} has generation ${answer.generation}`;
    if (answer.what === "reply" && node.operation.what !== "get") return `copy ${node.copy} took it`;
    if (answer.what === "reply") return `copy ${node.copy} has ${short(answer.tuple.value)}, v${answer.tuple.version}`;
    return `${record} set to ${short(node.kind.value)}`;
  }

  function accessCause(access, cause) {
    if (cause.what === "orphan") return shortCause(cause);
    return access.gone === NEVER ? `refused by copy ${access.copy}` : "without an answer";
  }

  function endMark(trail, node, event) {
    if (event.committed) return `✓ ${commitMark(trail, node, event.answer)}`;
    if (node.isAccess) return `✕ ${accessCause(node, event.cause)}`;
    return `✕ ${node.isManager ? managerCause(event.cause) : `aborted: ${shortCause(event.cause)}`}`;
  }

  // What stands in the box of a transaction at an entry; nothing where the entry is a copy's.
  function inBox(trail, node, event) {
    switch (event.what) {
      case "start":
        return startMark(trail, event);
      case "request":
        return `asks copy ${event.copy}: ${operationMark(trail, event.record, event.operation)}`;
      case "gone":
        return `gives up on copy ${node.copy}: ${event.why}`;
      case "ready":
        return "ready";
      case "mark":
        return `marks session ${event.session} to be killed`;
      case "end":
        return endMark(trail, node, event);
      default:
        return "";
    }
  }

  // What stands beside a copy at its own entry.
  function atCopy(trail, event) {
    if (event.what === "refusal" && event.why === "dead") return `refused: ${event.of} is aborted`;
    if (event.what === "refusal") return `refused: lock of ${event.of}`;
    if (event.what === "unable") return `unable: ${event.why}`;
    const name = Words.recordName(trail, event.record);
    if (event.operation.what === "get") return `${name} is ${short(event.tuple.value)}, v${event.tuple.version}`;
    return `takes ${operationMark(trail, event.record, event.operation)}`;
  }

  // How a user transaction ended, at the head of its box.
  function outcome(node, length) {
    if (node.end >= length || node.end === NEVER) return node.ready === NEVER ? "open" : "in doubt";
    return node.committed ? "✓ committed" : "✕ aborted";
  }

  return { inBox, atCopy, outcome, shortCause };
})();
