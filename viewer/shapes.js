// The text of SVG elements, and text that fits its room.
const Shapes = (() => {
  const SIGNS = { "&": "&amp;", "<": "&lt;", ">": "&gt;", '"': "&quot;" };
  const widths = new Map();
  let pen = null;

  const escape = (text) => String(text).replace(/[&<>"]/g, (sign) => SIGNS[sign]);
  const round = (number) => Math.round(number * 10) / 10;

  // An element with its attributes. What it is to show is escaped by the caller.
  function element(kind, attributes, inside = "") {
    let text = `<${kind}`;
    for (const name in attributes) {
      const value = attributes[name];
      text += ` ${name}="${typeof value === "number" ? round(value) : value}"`;
    }
    return `${text}>${inside}</${kind}>`;
  }

  // How wide a text is, by the widths of its signs.
  function wide(text, size) {
    pen ||= document.createElement("canvas").getContext("2d");
    let sum = 0;
    for (const sign of text) {
      if (!widths.has(sign)) {
        pen.font = `100px ${getComputedStyle(document.body).fontFamily}`;
        widths.set(sign, pen.measureText(sign).width / 100);
      }
      sum += widths.get(sign);
    }
    return sum * size;
  }

  // A text, cut where it has no room.
  function fit(text, room, size) {
    if (wide(text, size) <= room) return text;
    let [kept, left] = ["", room - wide("…", size)];
    for (const sign of text) {
      left -= wide(sign, size);
      if (left < 0) break;
      kept += sign;
    }
    return kept ? `${kept}…` : "";
  }

  return { escape, element, wide, fit };
})();
