// What a card shows of a thing of two maps: its kind, its title, and its fields in both maps. Those that differ come first.
import { h } from "./dom.js";
import { fieldTable } from "./field_table.js";
import { CHANGED, KIND_CLASSES, KIND_SIGNS } from "./kinds.js";
import { KINDS } from "./tables.js";

// The kind in words: `chain changed`, or `joined differently`.
export const kindText = ({ what, kind }) => (what === "tie" ? "joined differently" : `${what} ${KINDS[kind]}`);

export function differenceCard(entry) {
  const { kind, title, about, numbers, groups = [] } = entry;
  return [
    h("p", { class: `kind ${KIND_CLASSES[kind]}` }, `${KIND_SIGNS[kind]} ${kindText(entry)}`),
    h("h3", {}, title),
    h("p", { class: "quiet" }, [about, numbers].filter(Boolean).join(", ")),
    ...tablesOf(entry),
    groups.length ? h("ul", {}, groups.map((group) => h("li", {}, group.join("; ")))) : "",
  ];
}

const COLUMNS = ["in the first", "in the second"];

function tablesOf({ kind, rows }) {
  if (!rows.length) return [];
  if (kind !== CHANGED) return [fieldTable(rows.map((row) => ({ ...row, first: row.first ?? row.second, second: null })), [COLUMNS[kind] ?? "in both"])];
  const differing = rows.filter((row) => row.differs);
  const others = rows.filter((row) => !row.differs);
  const count = others.length === 1 ? "1 field is" : `${others.length} fields are`;
  const more = others.length ? h("details", {}, h("summary", {}, `${count} the same`), fieldTable(others, COLUMNS)) : "";
  return [fieldTable(differing, COLUMNS), more];
}
