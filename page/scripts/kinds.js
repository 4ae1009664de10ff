// The kinds of differences: what the first map has alone, what the second one has alone, what changed, and what is alike. They differ in
// form as well as in colour.
export const [FIRST, SECOND, CHANGED, ALIKE] = [0, 1, 2, 3];
export const KIND_CLASSES = ["first", "second", "changed", "alike"];
export const KIND_SIGNS = ["−", "+", "≠", "="];

// How the lines of each kind are drawn. A hollow line is drawn as its two edges.
export const KIND_LINES = [{ width: 3, dash: [8, 6] }, { width: 5 }, { width: 7, hollow: 3 }, { width: 1.2 }];

// How far the mark of a small chain stands aside, in pixels: where a chain moved, two marks stand side by side.
export const ASIDE = [-6, 6, 0, 0];

// A subject and a kind of it, as one text.
export const keyOfKind = (subject, kind) => `${subject} ${kind}`;
