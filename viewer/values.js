// Values of records: a number is a BigInt, and a text has a sign for each of its bytes. So two are the same where === says so.
const Values = (() => {
  const MOST_SIGNS = 24;
  const UTF_8 = new TextDecoder("utf-8", { ignoreBOM: true });

  const escaped = (sign) => `\\u${sign.charCodeAt(0).toString(16).padStart(4, "0")}`;

  // A value as a report has it, but for bytes that are no UTF-8.
  function spell(value) {
    if (typeof value === "bigint") return String(value);
    const text = UTF_8.decode(Uint8Array.from(value, (sign) => sign.charCodeAt(0)));
    return `"${text.replace(/["\\]/g, "\\$&").replace(/[\0-\x1f]/g, escaped)}"`;
  }

  // The same, cut where it is long.
  function short(value) {
    const signs = [...spell(value)];
    return signs.length > MOST_SIGNS ? `${signs.slice(0, MOST_SIGNS).join("")}…` : signs.join("");
  }

  return { spell, short };
})();
