// The classes of chains, by the first letter and digit of their CFCC. Of the roads, A1 are highways with limited access, A2 and A3 the
// main roads.
export const CLASSES = ["highway", "main road", "road", "rail", "water", "boundary", "other"];

const ROADS = { 1: 0, 2: 1, 3: 1 };
const OTHERS = { B: 3, H: 4, F: 5 };

export function classOf(letter, digit) {
  const isRoad = String.fromCharCode(letter) === "A";
  return isRoad ? (ROADS[String.fromCharCode(digit)] ?? 2) : (OTHERS[String.fromCharCode(letter)] ?? 6);
}
