// What keys, clicks and files ask of the page.
(() => {
  const { at, find, choose } = Page;

  const KEYS = {
    ArrowUp: () => choose(at.chosen - 1),
    ArrowDown: () => choose(at.chosen + 1),
    PageUp: () => choose(at.chosen - 20),
    PageDown: () => choose(at.chosen + 20),
    Home: () => choose(-1),
    End: () => choose(Infinity),
    a: () => Page.chooseNext(at.aborted, false),
    A: () => Page.chooseNext(at.aborted, true),
    n: () => Page.chooseNext(at.hits, false),
    N: () => Page.chooseNext(at.hits, true),
    "+": () => Page.grow(1.25),
    "=": () => Page.grow(1.25),
    "-": () => Page.grow(0.8),
    "/": () => find("find").focus(),
    t: () => Page.setText(!at.isText),
    s: () => Page.setSide(find("panel").hidden),
    d: () => Page.setDark(!Page.isDark()),
    p: () => print(),
    "?": () => find("help").showModal(),
  };

  // Which key a button stands for.
  const BUTTONS = {
    back: "ArrowUp", on: "ArrowDown", smaller: "-", larger: "+", text: "t", side: "s", dark: "d", print: "p", keys: "?",
  };

  function onKey(event) {
    const isTyped = event.target.matches("input[type=search], input[type=number]");
    const isOther = event.ctrlKey || event.metaKey || event.altKey || find("help").open;
    if (isTyped || isOther || !at.trail || !(event.key in KEYS)) return;
    event.preventDefault();
    KEYS[event.key]();
  }

  // A click on a box picks it, and one beside it chooses the entry alone.
  function onPicture(event) {
    const place = Page.placeAt(event.clientY);
    if (place >= 0) choose(place, { picked: at.trail.history.nodes.get(event.target.dataset.name) ?? null });
  }

  async function onFile(file) {
    if (file) await Page.open(new Uint8Array(await file.arrayBuffer()));
  }

  function listen() {
    document.addEventListener("keydown", onKey);
    find("field").addEventListener("scroll", Page.showSoon, { passive: true });
    find("field").addEventListener("scroll", () => Page.tip(null), { passive: true });
    find("picture").addEventListener("click", onPicture);
    find("picture").addEventListener("mousemove", Page.tip);
    find("picture").addEventListener("mouseleave", () => Page.tip(null));
    find("slider").addEventListener("input", (event) => choose(Number(event.target.value), { isMiddle: true }));
    find("place").addEventListener("change", (event) => choose(Number(event.target.value), { isMiddle: true }));
    find("file").addEventListener("change", (event) => onFile(event.target.files[0]));
    find("find").addEventListener("input", (event) => Page.search(event.target.value));
    find("find").addEventListener("keydown", (event) => {
      if (event.key === "Enter") Page.chooseNext(at.hits, event.shiftKey);
      if (event.key === "Escape") find("field").focus();
    });
    addEventListener("hashchange", Page.followAddress);
    addEventListener("beforeprint", Page.fillSheet);
    addEventListener("resize", Page.fitWindow);
    addEventListener("dragover", (event) => event.preventDefault());
    addEventListener("drop", (event) => {
      event.preventDefault();
      onFile(event.dataTransfer.files[0]);
    });
    for (const [id, key] of Object.entries(BUTTONS)) find(id).addEventListener("click", KEYS[key]);
  }

  // The trail that ./qc view wrote into the page.
  function openOwn() {
    const own = find("trail").textContent.replace(/\s+/g, "");
    if (!own) return;
    let bytes;
    try {
      bytes = Uint8Array.from(atob(own), (sign) => sign.charCodeAt(0));
    } catch {
      Page.tell("The trail in this page is spoilt.", true);
      document.documentElement.dataset.ready = "yes";
      return;
    }
    Page.open(bytes);
  }

  listen();
  openOwn();
})();
