// Where a name or a record is told of.
const Search = (() => {
  const { NEVER } = Histories;
  const MOST_HITS = 20000;

  // The entries of a transaction itself.
  function placesOf(trail, node) {
    const places = [node.start, node.end, node.ready];
    if (node.isAccess) places.push(node.asked, node.granted, node.refused, node.gone, node.unableAt);
    return places.filter((place) => place !== undefined && place < trail.length && place !== NEVER);
  }

  function wanted(trail, text) {
    const record = trail.table.records.findIndex(({ name }) => name.toLowerCase() === text);
    if (record >= 0) return (node) => !node.isUser && (node.isAccess ? node.parent : node).kind.record === record;
    if (/^copy \d+$/.test(text)) return (node) => node.isAccess && node.copy === Number(text.slice(5));
    if (["aborted", "conflict", "noquorum", "lost"].includes(text)) return (node) => isEndedSo(trail, node, text);
    return (node) => node.name === text || node.name.startsWith(`${text}.`);
  }

  function isEndedSo(trail, node, text) {
    if (text === "lost") return node.isAccess && node.why === "lost";
    if (!node.isAborted || node.isAccess) return false;
    return text === "aborted" ? node.isUser : trail.entry(node.end).cause.what === text;
  }

  // The entries that a search finds, in their order.
  function find(trail, asked) {
    const text = asked.trim().toLowerCase();
    if (!text) return [];
    const isWanted = wanted(trail, text);
    const found = new Set();
    for (const node of trail.history.inOrder) {
      if (found.size > MOST_HITS) break;
      if (isWanted(node)) for (const place of placesOf(trail, node)) found.add(place);
    }
    return [...found].sort((a, b) => a - b);
  }

  return { find };
})();
