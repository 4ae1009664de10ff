// The text of docs/refusals.md about a refusal as elements: paragraphs, lists, indented blocks, and in them emphasis, code and links, whose targets
// aren't here.
import { h } from "./dom.js";

const INLINE = /\*\*(.+?)\*\*|`([^`]+)`|\[([^\]]+)\]\([^)]*\)/g;

function inline(text) {
  const parts = [];
  let at = 0;
  for (const found of text.matchAll(INLINE)) {
    parts.push(text.slice(at, found.index));
    if (found[1]) parts.push(h("strong", {}, inline(found[1])));
    else if (found[2]) parts.push(h("code", {}, found[2]));
    else parts.push(...inline(found[3]));
    at = found.index + found[0].length;
  }
  return [...parts, text.slice(at)];
}

export function rendered(text) {
  return text.split(/\n{2,}/).map((block) => {
    const lines = block.split("\n");
    if (lines.every((line) => line.startsWith("    "))) return h("pre", { tabIndex: 0 }, lines.map((line) => line.slice(4)).join("\n"));
    if (lines.every((line) => line.startsWith("- "))) return h("ul", {}, lines.map((line) => h("li", {}, inline(line.slice(2)))));
    return h("p", {}, inline(lines.join(" ")));
  });
}
