// The fields of a thing as a table: of one map, or of both side by side.
import { h } from "./dom.js";

// `heads` are the names of the columns of values, or none. What one map lacks has null for its values.
export function fieldTable(rows, heads) {
  const names = heads.length ? ["field", ...heads] : [];
  const head = names.length > 0 && h("thead", {}, h("tr", {}, names.map((name) => h("th", { scope: "col" }, name))));
  return h("table", { class: "fields" }, head, h("tbody", {}, rows.map(rowOf)));
}

function rowOf({ label, holds, first, second, differs }) {
  const name = h("th", { scope: "row" }, label, h("small", {}, holds));
  if (first === null || second === null) return h("tr", {}, name, h("td", {}, first ?? second));
  if (!differs && first === second) return h("tr", {}, name, h("td", { colSpan: 2 }, first));
  return h("tr", { class: differs ? "differs" : "" }, name, h("td", { class: "first" }, first), h("td", { class: "second" }, second));
}
