// What entries, boxes and arrows are, in words.
const Words = (() => {
  const { NEVER } = Histories;
  const { spell } = Values;
  const TAKEN = { collect: "collect", values: "write the value", configs: "write the configuration" };

  const list = (items) => (items.length > 1 ? `${items.slice(0, -1).join(", ")} and ${items.at(-1)}` : items.join(""));
  const recordName = (trail, record) => trail.table.records[record]?.name ?? `record ${record}`;
  const configWords = (config) => `votes ${config.votes.join(",")}, read ${config.read}, write ${config.write}`;
  const tupleWords = (trail, record, tuple) => `${recordName(trail, record)} is ${spell(tuple.value)}, version ${tuple.version}`;
  const marked = (copies) => [...Array(16).keys()].filter((copy) => (copies >> copy) & 1);

  // WHAT BECAME OF A REQUEST

  // What the copy did with a request, or that it never came there.
  function fateOf(access) {
    if (access.asked === NEVER) return "unasked";
    const served = Math.min(access.granted, access.refused, access.unableAt);
    if (access.gone === NEVER) return served === NEVER ? "open" : "served";
    if (served === NEVER) return access.why === "lost" ? "lost" : "held";
    if (served > access.gone) return "late";
    return { lost: "answer lost", late: "answer late" }[access.why] ?? access.why;
  }

  function servedWords(access) {
    if (access.granted !== NEVER) return `Copy ${access.copy} granted it.`;
    if (access.refused === NEVER) return `Copy ${access.copy} was unable to serve it.`;
    const { why, of } = access.refusal;
    const reason = why === "dead" ? `${of.name} is aborted` : `the lock of ${of.name} is in its way`;
    return `Copy ${access.copy} refused it: ${reason}.`;
  }

  const FATES = {
    unasked: () => "It asked nothing.",
    open: () => "No answer stands in the trail.",
    served: servedWords,
    lost: (access) => `The request was lost: copy ${access.copy} never saw it.`,
    held: (access) => `The request was held on its way and came late or never: copy ${access.copy} did nothing with it.`,
    late: (access) => `The request was held on its way: copy ${access.copy} served it when it had been given up.`,
    "answer lost": (access) => `Copy ${access.copy} served it, and its answer was lost.`,
    "answer late": (access) => `Copy ${access.copy} served it, and its answer was late.`,
  };

  const fateWords = (access) => (FATES[fateOf(access)] ?? ((other) => `Copy ${other.copy} was ${other.why}.`))(access);

  // CAUSES

  const missingOf = (cause) => cause.missing.flatMap((why, copy) => (why ? [`copy ${copy} (${why})`] : []));

  // Who replied, and with how many of the votes that are wanted.
  function lackWords(cause, manager) {
    const replied = marked(cause.replied);
    const who = replied.length ? `${replied.length > 1 ? "copies" : "copy"} ${list(replied)} replied` : "no copy replied";
    const stage = manager?.gathering && Rules.stagesOf(manager).find(({ phase }) => phase === cause.phase);
    const told = stage ? [Rules.votesOf(stage.config, cause.replied), stage.config[stage.threshold]] : null;
    const votes = told ? `, with ${told[0]} of the ${told[1]} votes wanted` : "";
    return `no quorum to ${TAKEN[cause.phase]}: ${who}${votes}; missing ${list(missingOf(cause)) || "none"}`;
  }

  function causeWords(trail, node, cause) {
    switch (cause.what) {
      case "asked":
        return cause.by === node.name ? "it asked for that itself" : `${cause.by} below it asked for that`;
      case "conflict":
        return `conflict: at copy ${cause.copy} the lock of ${cause.holder} is in the way`;
      case "noquorum":
        return lackWords(cause, node.isManager ? node : failedChild(trail, node, cause));
      case "last":
        return "a version or generation is at its last number";
      case "orphan":
        return `${cause.of} above it is aborted`;
      case "killed":
        return "its session is marked to be killed";
      case "child":
        return `its child ${cause.child}, which must commit, was aborted`;
      default:
        return missedWords(node);
    }
  }

  function missedWords(access) {
    if (access.gone !== NEVER) return `its request to copy ${access.copy} got no answer (${access.why})`;
    if (access.refusal.why === "dead") return `copy ${access.copy} refused it, as ${access.refusal.of.name} is aborted`;
    return `copy ${access.copy} refused it, as the lock of ${access.refusal.of.name} is in its way`;
  }

  // The manager below a transaction for whose cause it was aborted.
  function failedChild(trail, node, cause) {
    const key = Histories.causeKey(cause);
    const isOne = (child) => child.isManager && child.isAborted && Histories.causeKey(trail.entry(child.end).cause) === key;
    return node.children.filter(isOne).pop() ?? null;
  }

  // ENTRIES

  function operationWords(trail, record, operation) {
    const name = recordName(trail, record);
    if (operation.what === "get") return `for ${name}`;
    if (operation.what === "data") return `to take ${name} = ${spell(operation.value)}, version ${operation.version}`;
    return `to take ${configWords(operation.config)} for ${name}, generation ${operation.generation}`;
  }

  function kindWords(trail, kind, isTop) {
    const name = recordName(trail, kind.record);
    switch (kind.what) {
      case "user":
        return isTop ? `a top of session ${kind.session}, body ${kind.body}` : `a child, body ${kind.body}`;
      case "read":
        return `a read of ${name}`;
      case "write":
        return `a write of ${spell(kind.value)} to ${name}`;
      case "reconf":
        return `a change of ${name} to ${configWords(kind.config)}`;
      default:
        return "an access, for one copy";
    }
  }

  function answerWords(trail, node, record, answer) {
    const name = recordName(trail, record);
    if (answer.what === "value") return `${name} is ${spell(answer.value)}`;
    if (answer.what === "reply") return `at copy ${node.copy} ${tupleWords(trail, record, answer.tuple)}`;
    if (answer.what === "generation") return `${name} has generation ${answer.generation}`;
    return `${name} is set to ${spell(node.kind.value)}`;
  }

  function endWords(trail, event) {
    const node = trail.history.nodes.get(event.name);
    if (!event.committed) return `${event.name} is aborted: ${causeWords(trail, node, event.cause)}`;
    const { answer } = event;
    const record = (node.isAccess ? node.parent : node).kind.record;
    if (node.isUser) return node.parent ? `${event.name} commits` : `the ledger commits ${event.name}`;
    return `${event.name} commits: ${answerWords(trail, node, record, answer)}`;
  }

  function grantWords(trail, event, place) {
    const { copy, record, operation, tuple } = event;
    const whom = `${event.name}${place > trail.history.nodes.get(event.name).gone ? ", too late" : ""}`;
    const name = recordName(trail, record);
    if (operation.what === "get") return `copy ${copy} answers ${whom}: ${tupleWords(trail, record, tuple)}`;
    const data = `${name} = ${spell(tuple.value)}, version ${tuple.version}`;
    const config = `${configWords(tuple.config)} for ${name}, generation ${tuple.generation}`;
    return `copy ${copy} takes ${operation.what === "data" ? data : config}, from ${whom}`;
  }

  const goneWords = (trail, event) => {
    const access = trail.history.nodes.get(event.name);
    return `${event.name} gives up on copy ${access.copy}: ${fateWords(access)}`;
  };

  function refusalWords(event) {
    if (event.why === "dead") return `copy ${event.copy} refuses ${event.name}: ${event.of} is aborted`;
    return `copy ${event.copy} refuses ${event.name}: the lock of ${event.of} is in its way`;
  }

  const ENTRIES = {
    start: (trail, event) => `${event.name} begins, ${kindWords(trail, event.kind, !event.name.includes("."))}`,
    request: (trail, { name, copy, record, operation }) =>
      `${name} asks copy ${copy} ${operationWords(trail, record, operation)}`,
    gone: goneWords,
    grant: grantWords,
    refusal: (trail, event) => refusalWords(event),
    ready: (trail, event) => `${event.name} is ready: all below it has ended, and the ledger is to log it`,
    end: endWords,
    unable: (trail, { name, why }) =>
      `${name.includes(".") ? "the copy is unable to serve" : "the ledger is unable to log"} ${name}: ${why}`,
    mark: (trail, event) => `${event.name} marks session ${event.session} to be killed`,
  };

  // An entry in a sentence.
  const entry = (trail, event, place) => ENTRIES[event.what](trail, event, place);

  // A box: what it is for, how it ended, and of an access what became of its request.
  function box(trail, node) {
    const end = node.end < trail.length ? trail.entry(node.end) : null;
    const open = node.ready < trail.length ? "ready, and in doubt" : "open to the end";
    const how = !end ? open : end.committed ? "committed" : `aborted: ${causeWords(trail, node, end.cause)}`;
    const what = `${node.name}, ${kindWords(trail, node.kind, !node.parent)}: ${how}.`;
    return node.isAccess ? `${what} ${fateWords(node)}` : what;
  }

  return { recordName, configWords, marked, fateOf, fateWords, causeWords, kindWords, entry, box };
})();
