// The rules of a legal history, as docs/DEFINITIONS.md tells them: whether an event may follow those before it. Each
// function answers null where it may, and else what is wrong, in words.
const Rules = (() => {
  const { NEVER, causeKey } = Histories;
  const LEDGER = 1;
  const LAST = 2n ** 64n - 1n;
  const isClient = (seat) => seat === 0 || seat > 17;
  const seatOf = (copy) => copy + 2;
  const NOT_A_CLIENT = "only a client may do this, and the seat is none of a client";

  const sameVotes = (a, b) => a.votes.every((vote, copy) => vote === b.votes[copy]);
  const sameConfig = (a, b) => a.read === b.read && a.write === b.write && sameVotes(a, b);

  function sameOperation(a, b) {
    if (a.what !== b.what) return false;
    if (a.what === "data") return a.version === b.version && a.value === b.value;
    return a.what === "get" || (a.generation === b.generation && sameConfig(a.config, b.config));
  }

  const sameTuple = (a, b) =>
    a.version === b.version && a.value === b.value && a.generation === b.generation && sameConfig(a.config, b.config);

  // A tuple behind an operation.
  function after(tuple, operation) {
    if (operation.what === "data") return { ...tuple, version: operation.version, value: operation.value };
    if (operation.what === "config") return { ...tuple, generation: operation.generation, config: operation.config };
    return tuple;
  }

  // THE STAGES OF A MANAGER

  function stagesOf(manager) {
    const { newest, greatest } = manager.gathering;
    const found = greatest ?? { version: 0n, value: 0n };
    const { kind } = manager;
    const stages = [{ phase: "collect", config: newest.config, threshold: "read", operation: { what: "get" } }];
    const put = (phase, config, operation) => stages.push({ phase, config, threshold: "write", operation });
    if (kind.what === "write") put("values", newest.config, { what: "data", version: found.version + 1n, value: kind.value });
    if (kind.what !== "reconf") return stages;
    put("values", kind.config, { what: "data", version: found.version, value: found.value });
    put("configs", newest.config, { what: "config", generation: newest.generation + 1n, config: kind.config });
    return stages;
  }

  const votesOf = (config, copies) => config.votes.reduce((sum, votes, copy) => sum + ((copies >> copy) & 1 ? votes : 0), 0);

  function isEnough(manager, stage) {
    const { replied } = manager.gathering.phase(stage.phase);
    return votesOf(stage.config, replied) >= stage.config[stage.threshold];
  }

  function isAtLast(manager) {
    const { newest, greatest } = manager.gathering;
    if (!isEnough(manager, stagesOf(manager)[0])) return false;
    if (manager.kind.what === "write") return greatest?.version === LAST;
    return manager.kind.what === "reconf" && newest.generation === LAST;
  }

  // The first stage that is not enough: null where the manager is complete or at its last number.
  function stageOf(manager) {
    if (isAtLast(manager)) return null;
    return stagesOf(manager).find((stage) => !isEnough(manager, stage)) ?? null;
  }

  const isComplete = (manager) => !isAtLast(manager) && stagesOf(manager).every((stage) => isEnough(manager, stage));

  function nextCopy(manager, stage) {
    const { asked } = manager.gathering.phase(stage.phase);
    return stage.config.votes.findIndex((votes, copy) => votes > 0 && !((asked >> copy) & 1));
  }

  const hasFailed = (manager, stage) => nextCopy(manager, stage) < 0 && !manager.gathering.waiting;

  // HOW NAMES STAND

  function notGoing(node) {
    if (!node.isOpen) return `${node.name} has ended`;
    return node.dead ? `${node.dead.name} is aborted` : null;
  }

  const isOrphanOf = (node, ancestor) => ancestor !== node && ancestor?.isAbove(node) && ancestor.isAborted;

  // STARTS

  function startTop(history, event) {
    if (event.kind.what !== "user") return "only a user transaction may be a top";
    return null;
  }

  function startBelow(history, event) {
    const parent = history.parentOf(event.name);
    if (!parent) return "its parent has not started";
    const stopped = notGoing(parent);
    if (stopped) return stopped;
    if (parent.ready !== NEVER) return "its parent is ready";
    if (event.name !== `${parent.name}.${parent.children.length + 1}`) return "it is not the next child of its parent";
    const { what, record } = event.kind;
    if (what === "access") {
      if (!parent.isManager) return "an access stands under a manager";
      return event.seat === parent.seat ? null : "an access starts under the seat of its manager";
    }
    if (!parent.isUser) return "it may only stand under a user transaction";
    if (what === "user") return parent.depth < 16 ? null : "user transactions nest no deeper than 16";
    return record < history.table.records.length ? null : `there is no record ${record}`;
  }

  function start(history, event) {
    if (!isClient(event.seat)) return NOT_A_CLIENT;
    if (history.nodes.has(event.name)) return "it has started before";
    return event.name.includes(".") ? startBelow(history, event) : startTop(history, event);
  }

  // REQUESTS

  function request(history, event) {
    const access = history.nodes.get(event.name);
    if (!isClient(event.seat)) return NOT_A_CLIENT;
    const isOwn = access?.isAccess && access.seat === event.seat && access.parent.seat === event.seat;
    if (!isOwn) return "it is no access that this seat started";
    if (notGoing(access)) return notGoing(access);
    if (access.asked !== NEVER) return "it has asked before";
    const manager = access.parent;
    if (manager.gathering.waiting) return `its manager waits for ${manager.gathering.waiting.name}`;
    const stage = stageOf(manager);
    if (!stage || nextCopy(manager, stage) !== event.copy) return `its manager does not ask copy ${event.copy} next`;
    if (event.record !== manager.kind.record) return "its manager serves another record";
    return sameOperation(event.operation, stage.operation) ? null : "its manager asks for another operation";
  }

  function gone(history, event) {
    const access = history.nodes.get(event.name);
    if (!isClient(event.seat)) return NOT_A_CLIENT;
    const hasAsked = access?.isAccess && access.asked !== NEVER && access.askedUnder === event.seat;
    if (!hasAsked) return "it asked nothing under this seat";
    if (!access.isOpen) return "it has ended";
    if (access.gone !== NEVER) return "it was given up before";
    if (event.why === "lost" || event.why === "late") return null;
    return access.unable?.has(event.why) ? null : `its copy has not said that it is ${event.why}`;
  }

  // COPIES

  function asked(history, event) {
    const access = history.nodes.get(event.name);
    return access?.isAccess && access.asked !== NEVER && access.copy === event.copy ? access : null;
  }

  function grant(history, event) {
    if (event.seat !== seatOf(event.copy)) return "the seat is not that of the copy";
    const access = asked(history, event);
    const isSame = access?.parent.kind.record === event.record && sameOperation(access.operation, event.operation);
    if (!isSame) return "the access did not ask this";
    if (access.granted !== NEVER) return "it was granted before";
    if (access.dead) return null;
    const cell = history.cells[event.copy][event.record];
    const holder = cell.inWay(event.operation, access);
    if (holder) return `the lock of ${holder.name} is in its way`;
    return sameTuple(event.tuple, after(cell.tuple, event.operation)) ? null : "the copy holds another tuple";
  }

  function refusal(history, event) {
    if (event.seat !== seatOf(event.copy)) return "the seat is not that of the copy";
    const access = asked(history, event);
    if (!access) return "the access did not ask this copy";
    const { dead } = access;
    if (event.why === "dead") return dead?.name === event.of ? null : `${event.of} is not its highest aborted ancestor`;
    if (dead) return `${dead.name} is aborted`;
    const holder = history.cells[event.copy][access.parent.kind.record].inWay(access.operation, access);
    return holder?.name === event.of ? null : `the lock of ${event.of} is not the first in its way`;
  }

  function unable(history, event) {
    const node = history.nodes.get(event.name);
    const isReadyTop = node && !node.parent && node.ready !== NEVER;
    if (event.seat === LEDGER && isReadyTop && event.why !== "strange") return null;
    if (node?.isAccess && node.asked !== NEVER && event.seat === seatOf(node.copy)) return null;
    return "it asked nothing of this seat";
  }

  // MARKS AND ENDS

  function mark(history, event) {
    if (!isClient(event.seat)) return NOT_A_CLIENT;
    return history.nodes.get(event.name)?.isUser ? null : "only a started user transaction may mark a session";
  }

  function ready(history, event) {
    const top = history.nodes.get(event.name);
    if (!isClient(event.seat)) return NOT_A_CLIENT;
    if (!top || top.parent) return "it is no top that has started";
    if (!top.isOpen) return "it has ended";
    if (top.ready !== NEVER) return "it was ready before";
    return top.openChildren > 0 ? "a child of it is open" : null;
  }

  function commitUser(node, event) {
    if (event.answer.what !== "nothing") return "a user transaction answers nothing";
    if (!node.parent) {
      if (event.seat !== LEDGER) return "a top commits under the ledger's seat";
      if (!node.isOpen) return "it has ended";
      return node.ready === NEVER ? "it is not ready" : null;
    }
    if (!isClient(event.seat)) return NOT_A_CLIENT;
    return notGoing(node) ?? (node.openChildren > 0 ? "a child of it is open" : null);
  }

  function commitAccess(node, event) {
    if (!isClient(event.seat)) return NOT_A_CLIENT;
    if (node.asked === NEVER || node.askedUnder !== event.seat) return "it asked nothing under this seat";
    if (notGoing(node)) return notGoing(node);
    const same = node.granted !== NEVER && event.answer.what === "reply" && sameTuple(event.answer.tuple, node.tuple);
    return same ? null : "it was granted another tuple, or none";
  }

  function isAnswerOf(manager, answer) {
    const { newest, greatest } = manager.gathering;
    if (manager.kind.what === "read") return answer.what === "value" && answer.value === (greatest?.value ?? 0n);
    if (manager.kind.what === "write") return answer.what === "nothing";
    return answer.what === "generation" && answer.generation === newest.generation + 1n;
  }

  function commitManager(node, event) {
    if (!isClient(event.seat) || event.seat !== node.seat) return "a manager commits under its own seat";
    if (notGoing(node)) return notGoing(node);
    if (!isComplete(node)) return "it has not enough replies";
    if (node.openChildren > 0) return "an access of it is open";
    return isAnswerOf(node, event.answer) ? null : "it has another answer";
  }

  function userCause(history, node, cause) {
    const named = (name) => history.nodes.get(name);
    switch (cause.what) {
      case "asked": {
        const by = named(cause.by);
        return by?.isUser && node.isAbove(by);
      }
      case "orphan":
        return isOrphanOf(node, named(cause.of));
      case "killed":
        return (history.marks.get(node.kind.session) ?? -1n) >= node.top.number;
      case "child": {
        const child = named(cause.child);
        return child?.parent === node && child.isUser && child.isAborted;
      }
      case "missed":
        return false;
      default:
        return node.causes?.has(causeKey(cause));
    }
  }

  function isConflict(manager, stage, cause) {
    const first = manager.gathering.phase(stage.phase).blocked;
    return first && first.copy === cause.copy && first.refusal.of.name === cause.holder;
  }

  function isLack(manager, stage, cause) {
    const phase = manager.gathering.phase(stage.phase);
    const isKnown = (votes, copy) => votes === 0 || (phase.replied >> copy) & 1 || Boolean(phase.missing[copy]);
    if (phase.blocked || !stage.config.votes.every(isKnown)) return false;
    if (cause.phase !== stage.phase || cause.replied !== phase.replied) return false;
    return cause.missing.every((why, copy) => why === (phase.missing[copy] ?? null));
  }

  function managerCause(history, node, cause) {
    if (cause.what === "last") return isAtLast(node);
    if (cause.what === "orphan") return isOrphanOf(node, history.nodes.get(cause.of));
    const stage = stageOf(node);
    if (!stage || !hasFailed(node, stage)) return false;
    if (cause.what === "conflict") return isConflict(node, stage, cause);
    return cause.what === "noquorum" && isLack(node, stage, cause);
  }

  function isLicensed(history, node, event) {
    const { cause, seat } = event;
    if (node.isUser) return userCause(history, node, cause);
    if (node.isManager) return seat === node.seat && managerCause(history, node, cause);
    if (seat !== node.parent.seat) return false;
    if (cause.what === "orphan") return isOrphanOf(node, history.nodes.get(cause.of));
    return cause.what === "missed" && (node.gone !== NEVER || node.refused !== NEVER);
  }

  function abort(history, node, event) {
    if (!isClient(event.seat)) return NOT_A_CLIENT;
    if (!node.isOpen) return "it has ended";
    if (node.ready !== NEVER) return "a ready top is not aborted";
    return isLicensed(history, node, event) ? null : `nothing licenses an abort for this cause (${event.cause.what})`;
  }

  function end(history, event) {
    const node = history.nodes.get(event.name);
    if (!node) return "it has not started";
    if (!event.committed) return abort(history, node, event);
    if (node.isUser) return commitUser(node, event);
    return node.isAccess ? commitAccess(node, event) : commitManager(node, event);
  }

  const RULES = { start, request, gone, grant, refusal, ready, end, unable, mark };

  // What is wrong with an event behind a history, or null.
  const refuses = (history, event) => RULES[event.what](history, event);

  return { refuses, stagesOf, votesOf };
})();
