// What stands beside the picture: the chosen entry, what is behind it, and how things stood there.
const Panel = (() => {
  const { escape } = Shapes;
  const { spell, short } = Values;
  const MOST_LINES = 60;
  const SHOWN_READS = 8;

  const link = (place, text = place) => `<a href="#entry=${place}">${escape(text)}</a>`;
  const named = (node) => link(node.start, node.name);
  const none = (text) => `<p class="none">${text}</p>`;

  // A list that is cut where it is long.
  function lines(items, empty) {
    if (!items.length) return none(empty);
    const more = items.length > MOST_LINES ? `<li class="none">and ${items.length - MOST_LINES} more</li>` : "";
    return `<ul>${items.slice(0, MOST_LINES).map((item) => `<li>${item}</li>`).join("")}${more}</ul>`;
  }

  // THE ENTRY AND WHAT IS BEHIND IT

  function nowText(trail, place) {
    if (place < 0) return "Before the first entry: what the run started from.";
    return `Entry ${place}: ${Words.entry(trail, trail.entry(place), place)}.`;
  }

  function accessFacts(trail, access) {
    const facts = [];
    if (access.asked < trail.length) facts.push(`asks copy ${access.copy} at entry ${link(access.asked)}`);
    if (access.granted < trail.length) facts.push(`granted at entry ${link(access.granted)}`);
    if (access.refused < trail.length) facts.push(`refused at entry ${link(access.refused)} for ${named(access.refusal.of)}`);
    if (access.gone < trail.length) facts.push(`given up at entry ${link(access.gone)}: ${access.why}`);
    facts.push(escape(Words.fateWords(access)));
    return facts;
  }

  // The requests of a manager, each with what became of it.
  function managerFacts(trail, manager) {
    const fact = (access) => `${link(access.asked, `entry ${access.asked}`)}: ${escape(Words.fateWords(access))}`;
    return manager.children.filter((access) => access.asked < trail.length).map(fact);
  }

  function behind(trail, node) {
    const facts = [`${escape(Words.kindWords(trail, node.kind, !node.parent))}, from entry ${link(node.start)}`];
    if (node.parent) facts.push(`below ${named(node.parent)}`);
    if (node.end < trail.length) {
      const event = trail.entry(node.end);
      const how = event.committed ? "commits" : `is aborted: ${Words.causeWords(trail, node, event.cause)}`;
      facts.push(`<strong class="${event.committed ? "good" : "bad"}">${escape(how)}</strong>, at entry ${link(node.end)}`);
    } else {
      facts.push(node.ready < trail.length ? "ready, and in doubt: it has no end" : "open at the end of the trail");
    }
    if (node.isAccess) facts.push(...accessFacts(trail, node));
    if (node.isManager) facts.push(...managerFacts(trail, node));
    return `<h3>${named(node)}</h3>${lines(facts, "")}`;
  }

  // HOW THINGS STOOD

  // What a copy holds of a record: its value, version and generation, and how many votes it has by its configuration.
  function cell(tuple, copy) {
    const { value, version, generation, config } = tuple;
    const votes = `${config.votes[copy]} vote${config.votes[copy] === 1 ? "" : "s"}`;
    const title = `${spell(value)}, version ${version}, generation ${generation}: ${Words.configWords(config)}`;
    return `<td title="${escape(title)}"><b>${escape(short(value))}</b><br><small>v${version} g${generation} ${votes}</small></td>`;
  }

  function holdings(trail, place, record) {
    const heads = trail.base.map((_, copy) => `<th scope="col">copy ${copy}</th>`).join("");
    const rows = trail.table.records.map(({ name }, at) => {
      const cells = trail.base.map((_, copy) => cell(States.holdsAt(trail, copy, at, place), copy)).join("");
      return `<tr${at === record ? ' class="now"' : ""}><th scope="row">${escape(name)}</th>${cells}</tr>`;
    });
    const table = `<table><thead><tr><td></td>${heads}</tr></thead><tbody>${rows.join("")}</tbody></table>`;
    return `<div class="wide">${table}</div><p class="none">v version, g generation, and the copy's votes</p>`;
  }

  function locks(trail, place) {
    const items = States.locksAt(trail, place).map((lock) => {
      const where = `${escape(Words.recordName(trail, lock.record))} at copy ${lock.copy}`;
      const kind = lock.writes ? "write" : "read";
      return `${where}: <b>${kind}</b> lock of ${named(lock.holder)}, since ${link(lock.first.granted)}`;
    });
    return lines(items, "No lock is held.");
  }

  function readText(trail, read) {
    return `${Words.recordName(trail, read.kind.record)} = ${short(trail.entry(read.end).answer.value)}`;
  }

  function open(trail, place) {
    const items = States.openAt(trail, place).map((node) => {
      const reads = States.readsAt(node, place);
      const shown = reads.slice(-SHOWN_READS).map((read) => link(read.end, readText(trail, read)));
      const more = reads.length > SHOWN_READS ? `${reads.length - SHOWN_READS} earlier, ` : "";
      const said = shown.length ? `has read ${more}${shown.join(", ")}` : "has read nothing";
      const state = node.ready <= place ? ", ready" : "";
      return `<span style="padding-left:${node.depth - 1}em">${named(node)}${state}: ${said}</span>`;
    });
    return lines(items, "No transaction is open.");
  }

  // THE SERIAL ORDER

  function values(trail, place) {
    const found = trail.order.valuesAfter(trail.order.lengthAt(place));
    const value = ({ name }, record) => {
      const kept = `${escape(name)} = <b>${escape(short(found[record]))}</b>`;
      return `<span class="value" title="${escape(spell(found[record]))}">${kept}</span>`;
    };
    return `<p>${trail.table.records.map(value).join(" ")}</p>`;
  }

  // The events around the last one that stands in the order at the entry; those that come later are pale.
  function order(trail, place) {
    const { events } = trail.order;
    const length = trail.order.lengthAt(place);
    const from = Math.max(0, Math.min(length - 14, events.length - 26));
    const items = events.slice(from, from + 26).map((event, next) => {
      const at = from + next;
      const state = event.entry === place ? "now" : at < length ? "" : "later";
      const line = link(event.entry, trail.order.line(event));
      return `<li value="${at}" class="${state}">${line} <small>entry ${event.entry}</small></li>`;
    });
    if (!items.length) return none("It has no event.");
    return `<p>${length} of ${events.length} events stand in it.</p><ol start="${from}">${items.join("")}</ol>`;
  }

  function section(id, title, body, isOpen = true) {
    return `<details id="${id}"${isOpen ? " open" : ""}><summary>${title}</summary>${body}</details>`;
  }

  // The whole panel for an entry, and for a box that was picked. Sections stay folded where they are.
  function fill(panel, trail, place, picked) {
    const folded = new Set([...panel.querySelectorAll("details:not([open])")].map((part) => part.id));
    const event = place < 0 ? null : trail.entry(place);
    const node = picked ?? (event && trail.history.nodes.get(event.name));
    const record = node && !node.isUser ? (node.isAccess ? node.parent : node).kind.record : -1;
    const parts = [
      ["what", "What is behind it", node ? behind(trail, node) : none("Choose an entry or a box.")],
      ["holdings", "What each copy holds", holdings(trail, place, record)],
      ["locks", "Who holds which lock", locks(trail, place)],
      ["open", "Open transactions", open(trail, place)],
      ["values", "Values of the serial order so far", values(trail, place)],
      ["order", "The serial order", order(trail, place)],
    ];
    panel.innerHTML = parts.map(([id, title, body]) => section(id, title, body, !folded.has(id))).join("");
  }

  return { fill, nowText, link };
})();
