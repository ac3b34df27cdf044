// The entries as text, some at a time.
const Listing = (() => {
  const AT_A_TIME = 200;

  function turn(from, length) {
    const links = [];
    if (from > 0) links.push(Panel.link(Math.max(0, from - AT_A_TIME), "earlier entries"));
    if (from + AT_A_TIME < length) links.push(Panel.link(from + AT_A_TIME, "later entries"));
    return links.length ? `<p>${links.join(" · ")}</p>` : "";
  }

  function item(trail, at, chosen) {
    const { order } = trail;
    const event = trail.entry(at);
    const serial = trail.eventsAt(at).map((place) => `<small>${place} ${order.line(order.events[place])}</small>`);
    const { depth } = trail.history.nodes.get(event.name);
    const mark = at === chosen ? ' class="now" aria-current="true"' : "";
    const words = Panel.link(at, Words.entry(trail, event, at));
    return `<li value="${at}"${mark} style="--depth:${depth - 1}">${words} ${serial.join(" ")}</li>`;
  }

  // Fills a place of the page with the entries around the chosen one.
  function fill(place, trail, chosen) {
    const from = Math.floor(Math.max(0, chosen) / AT_A_TIME) * AT_A_TIME;
    const items = [];
    for (let at = from; at < Math.min(trail.length, from + AT_A_TIME); at++) items.push(item(trail, at, chosen));
    place.innerHTML = `${turn(from, trail.length)}<ol start="${from}">${items.join("")}</ol>${turn(from, trail.length)}`;
    place.querySelector(".now")?.scrollIntoView({ block: "nearest" });
  }

  return { fill };
})();
