// The page: which entry is chosen, what is seen, and what keys, clicks and files do.
const Page = (() => {
  const MOST_PIXELS = 15e6;
  const ROWS = { least: 14, most: 20 };
  const AT_ONCE = 20000;
  const MOST_CHIPS = 14;
  const MOST_CAUSES = 6;
  const MOST_PRINTED = 1500;
  const PRINTED_ROW = 14;
  // A browser takes few changes of the address in a second.
  const ADDRESS_DELAY = 250;
  const find = (id) => document.getElementById(id);
  const at = {
    trail: null, sessions: null, columns: null, chosen: -1, picked: null, rowHeight: 18, hits: [], aborted: [], isText: false,
  };
  let isDue = false;

  // WHAT IS SEEN

  const rowHeight = () => Math.min(at.rowHeight, MOST_PIXELS / Math.max(1, at.trail.length));

  function fitWindow() {
    if (!at.trail) return;
    measure();
    drawAborts();
    showSoon();
  }

  function measure() {
    const field = find("field");
    at.columns = Layout.columns(at.trail, at.sessions, field.clientWidth, Drawing.sizeOf(rowHeight()));
    find("room").style.width = `${at.columns.width}px`;
    find("room").style.height = `${at.trail.length * rowHeight() + Drawing.HEAD + 30}px`;
  }

  function viewOf(field) {
    const height = rowHeight();
    const first = Math.max(0, Math.floor(field.scrollTop / height));
    const last = Math.min(at.trail.length - 1, Math.ceil((field.scrollTop + field.clientHeight - Drawing.HEAD) / height));
    return {
      first, last, rowHeight: height, top: Drawing.HEAD - (field.scrollTop - first * height), wide: field.clientWidth,
      across: field.scrollLeft, chosen: at.chosen, picked: at.picked,
      hits: at.hits.filter((place) => place >= first && place <= last),
    };
  }

  function draw() {
    const [field, picture] = [find("field"), find("picture")];
    picture.setAttribute("width", field.clientWidth);
    picture.setAttribute("height", field.clientHeight);
    picture.setAttribute("viewBox", `${field.scrollLeft} 0 ${field.clientWidth} ${field.clientHeight}`);
    picture.innerHTML = Drawing.picture(at.trail, at.columns, viewOf(field));
  }

  function show() {
    isDue = false;
    if (!at.trail) return;
    if (!at.isText) draw();
    if (at.shown === at.chosen && at.shownBox === at.picked && at.shownText === at.isText) return;
    Panel.fill(find("panel"), at.trail, at.chosen, at.picked);
    if (at.isText) Listing.fill(find("list"), at.trail, at.chosen);
    find("now").textContent = Panel.nowText(at.trail, at.chosen);
    Object.assign(at, { shown: at.chosen, shownBox: at.picked, shownText: at.isText });
  }

  // Shows it at the next frame, once.
  function showSoon() {
    if (!isDue) requestAnimationFrame(show);
    isDue = true;
  }

  // The entry whose row stands so high in the window.
  function placeAt(clientY) {
    const field = find("field");
    const y = clientY - field.getBoundingClientRect().top - Drawing.HEAD;
    const place = Math.floor((field.scrollTop + y) / rowHeight());
    return y >= 0 && place < at.trail.length ? place : -1;
  }

  // What is pointed at, in words: the entry of the row, and the box or the lock.
  function tip(event) {
    const box = find("tip");
    const place = at.trail && event ? placeAt(event.clientY) : -1;
    box.hidden = place < 0;
    if (place < 0) return;
    const { name, words } = event.target.dataset;
    const behind = name ? Words.box(at.trail, at.trail.history.nodes.get(name)) : words;
    const lines = [Panel.nowText(at.trail, place), behind].filter(Boolean);
    box.innerHTML = lines.map((text) => `<p>${Shapes.escape(text)}</p>`).join("");
    box.style.left = `${Math.min(event.clientX + 14, innerWidth - box.offsetWidth - 8)}px`;
    box.style.top = `${Math.min(event.clientY + 16, innerHeight - box.offsetHeight - 8)}px`;
  }

  // THE CHOSEN ENTRY

  function reveal(place, isMiddle) {
    const field = find("field");
    const height = rowHeight();
    const room = field.clientHeight - Drawing.HEAD - height;
    const y = Math.max(0, place) * height;
    if (isMiddle && (y < field.scrollTop || y > field.scrollTop + room)) field.scrollTop = y - room / 2;
    else if (y < field.scrollTop) field.scrollTop = y;
    else if (y > field.scrollTop + room) field.scrollTop = y - room;
  }

  function choose(place, { picked = null, isMiddle = false } = {}) {
    if (!at.trail || Number.isNaN(place)) return;
    at.chosen = Math.min(at.trail.length - 1, Math.max(-1, place));
    at.picked = picked;
    find("slider").value = find("place").value = at.chosen;
    find("slider").setAttribute("aria-valuetext", at.chosen < 0 ? "before the first entry" : `entry ${at.chosen}`);
    reveal(at.chosen, isMiddle);
    clearTimeout(at.address);
    at.address = setTimeout(() => history.replaceState(null, "", `#entry=${at.chosen}`), ADDRESS_DELAY);
    showSoon();
  }

  function followAddress() {
    const found = /^#entry=(-?\d+)$/.exec(location.hash);
    if (found) choose(Number(found[1]), { isMiddle: true });
    return Boolean(found);
  }

  // The next of some entries behind the chosen one, or the one before.
  function chooseNext(places, isBack) {
    const next = isBack ? places.findLast((place) => place < at.chosen) : places.find((place) => place > at.chosen);
    if (next !== undefined) choose(next, { isMiddle: true });
  }

  // FILES

  const tell = (text, isBad) => {
    find("said").textContent = text;
    find("said").className = isBad ? "bad" : "";
  };

  function illegalLine({ place, event, why }) {
    const what = `entry ${place} (${event.what} of ${event.name})`;
    return `Illegal: ${what} is not allowed by those before it: ${why}. What is drawn ends before it.`;
  }

  function legalLine(trail) {
    const { tops } = trail.history;
    const many = (isOne) => tops.filter(isOne).length;
    const ends = [
      `${many((top) => top.committed)} committed`, `${many((top) => top.isAborted)} aborted`,
      `${many((top) => top.isOpen)} open or in doubt`,
    ];
    const order = `${trail.order.events.length} events in serial order`;
    return `Legal: ${trail.length} entries; ${tops.length} tops, ${ends.join(", ")}; ${order}`;
  }

  // What an audit would say, in a line.
  function verdictLine(trail) {
    const { order, illegal } = trail;
    if (illegal) return illegalLine(illegal);
    if (order.unfound === null) return legalLine(trail);
    const event = `event ${order.unfound} of the order, ${order.line(order.events[order.unfound])}`;
    return `Legal, but the serial machine refuses ${event}: the record has another value.`;
  }

  const pause = () => new Promise((go) => setTimeout(go));

  // Reads a trail a part at a time, so that the page answers meanwhile. Another that is opened ends it.
  async function readAll(bytes) {
    const trail = Trails.open(bytes);
    at.bytes = bytes;
    while (!trail.readOn(AT_ONCE)) {
      tell(`Reading: ${trail.told} of ${trail.count} entries`);
      await pause();
      if (at.bytes !== bytes) return null;
    }
    return trail;
  }

  // Opens the bytes of a file, or tells where they are no saved trail.
  async function open(bytes) {
    at.trail = null;
    try {
      const trail = await readAll(bytes);
      if (!trail) return;
      tell(verdictLine(trail), trail.verdict !== `legal ${trail.length}`);
      begin(trail);
    } catch (fault) {
      if (!(fault instanceof Reading.Malformed)) throw fault;
      const entry = fault.entry === undefined ? "" : `, in entry ${fault.entry}`;
      tell(`No saved trail: at byte ${fault.place}${entry}: ${fault.message}.`, true);
      setOpen(false);
    }
    document.documentElement.dataset.ready = "yes";
  }

  function setOpen(isOpen) {
    for (const part of [find("slide"), find("tops"), document.querySelector("main")]) part.hidden = !isOpen;
    find("empty").hidden = isOpen;
  }

  function begin(trail) {
    Object.assign(at, { trail, sessions: Layout.sessionsOf(trail), picked: null, hits: [], shown: undefined });
    at.aborted = trail.history.tops.filter((top) => top.isAborted).map((top) => top.end).sort((a, b) => a - b);
    setOpen(true);
    document.title = `qc: ${trail.length} entries`;
    find("tops").innerHTML = chips(trail);
    find("slider").max = find("place").max = trail.length - 1;
    find("place").min = -1;
    at.rowHeight = Math.min(ROWS.most, Math.max(ROWS.least, (find("field").clientHeight - Drawing.HEAD) / trail.length));
    measure();
    drawAborts();
    // The page opens at the first abort of a top, else at the last entry.
    if (!followAddress()) choose(at.aborted[0] ?? trail.length - 1, { isMiddle: true });
  }


  function chip(trail, top, isShort) {
    const state = top.isOpen ? "open" : top.committed ? "committed" : "aborted";
    const cause = top.isAborted ? trail.entry(top.end).cause : null;
    const why = !cause ? "" : `: ${isShort ? Marks.shortCause(cause) : Words.causeWords(trail, top, cause)}`;
    const text = Shapes.escape(`${top.name} ${Marks.outcome(top, trail.length)}${why}`);
    return `<a class="chip ${state}" href="#entry=${top.isOpen ? top.start : top.end}">${text}</a>`;
  }

  // A link for each top; where these are too many, for each that is not committed.
  function chips(trail) {
    const { tops } = trail.history;
    const isMany = tops.length > MOST_CHIPS;
    const wanted = isMany ? tops.filter((top) => !top.committed) : tops;
    const cut = wanted.length > MOST_CHIPS ? `, the first ${MOST_CHIPS} here` : "";
    const rest = wanted.length ? `${wanted.length} of them not committed${cut}` : "all committed";
    const front = isMany ? `<span>${tops.length} tops, ${rest}</span>` : "";
    const isShort = at.aborted.length > MOST_CAUSES;
    return front + wanted.slice(0, MOST_CHIPS).map((top) => chip(trail, top, isShort)).join(" ");
  }

  // Under the slider a line tells where tops were aborted.
  function drawAborts() {
    const strip = find("aborts");
    const pen = strip.getContext("2d");
    strip.width = strip.clientWidth;
    pen.fillStyle = getComputedStyle(document.documentElement).getPropertyValue("--mark");
    const step = (strip.width - 2) / Math.max(1, at.trail.length - 1);
    for (const place of at.aborted) pen.fillRect(place * step, 0, 2, strip.height);
  }

  // PRINTING AND FORMS

  function fillSheet() {
    if (!at.trail) return;
    const columns = Layout.columns(at.trail, at.sessions, 1100, Drawing.sizeOf(PRINTED_ROW));
    const isWhole = at.trail.length <= MOST_PRINTED;
    const { first, last } = isWhole ? { first: 0, last: at.trail.length - 1 } : viewOf(find("field"));
    const fixed = { rowHeight: PRINTED_ROW, top: Drawing.HEAD, across: 0, wide: columns.width };
    const view = { ...fixed, first, last, chosen: -1, picked: null, hits: [] };
    const sheet = find("sheet");
    sheet.setAttribute("viewBox", `0 0 ${columns.width} ${Drawing.HEAD + (last - first + 1) * PRINTED_ROW + 6}`);
    sheet.innerHTML = Drawing.picture(at.trail, columns, view);
  }

  function grow(factor) {
    const middle = (find("field").scrollTop + find("field").clientHeight / 2) / rowHeight();
    at.rowHeight = Math.min(40, Math.max(2, at.rowHeight * factor));
    measure();
    find("field").scrollTop = middle * rowHeight() - find("field").clientHeight / 2;
    showSoon();
  }

  function setText(isText) {
    at.isText = isText;
    find("text").setAttribute("aria-pressed", isText);
    find("field").hidden = isText;
    find("list").hidden = !isText;
    if (!isText) reveal(at.chosen, true);
    showSoon();
  }

  // Whether the panel beside the picture is shown.
  function setSide(isShown) {
    find("panel").hidden = !isShown;
    find("side").setAttribute("aria-pressed", isShown);
    if (at.trail) measure();
    showSoon();
  }

  function setDark(isDark) {
    document.documentElement.dataset.form = isDark ? "dark" : "light";
    find("dark").setAttribute("aria-pressed", isDark);
  }

  function isDark() {
    const { form } = document.documentElement.dataset;
    return form ? form === "dark" : matchMedia("(prefers-color-scheme: dark)").matches;
  }

  function search(text) {
    at.hits = at.trail ? Search.find(at.trail, text) : [];
    find("found").textContent = text.trim() ? `${at.hits.length} found` : "";
    showSoon();
  }

  return {
    at, find, open, tell, placeAt, tip, choose, chooseNext, followAddress, fitWindow, showSoon, fillSheet, grow,
    setText, setSide, setDark, isDark, search,
  };
})();
